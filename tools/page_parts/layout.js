// Where boxes are. Each has a column of its own, so that no frame holds a box of another component.
const ZOOMS = [
  { name: "2 %", pitch: 3, width: 2, height: 22, lane: 34, shows: "none" },
  { name: "10 %", pitch: 16, width: 12, height: 22, lane: 34, shows: "none" },
  { name: "35 %", pitch: 62, width: 52, height: 26, lane: 42, shows: "name" },
  { name: "70 %", pitch: 122, width: 106, height: 64, lane: 90, shows: "some" },
  { name: "100 %", pitch: 166, width: 148, height: 102, lane: 132, shows: "all" },
];
const OPS_SHOWN = 3;
const AXIS = 26;
const ZONE_GAP = 18;
const WORD = 60;
const narrow = window.matchMedia("(max-width: 600px)");
let level = narrow.matches ? 3 : 4;

function zoom() {
  return ZOOMS[level];
}

function headWidth() {
  return narrow.matches ? 44 : 104;
}

// How many of the spaces before those that wait, and before the missing ones, are before a column.
function gapsBefore(at) {
  return (at >= count ? 1 : 0) + (at >= count + data.waiting ? 1 : 0);
}

function columnX(at) {
  const { pitch, width } = zoom();
  return headWidth() + (pitch - width) / 2 + at * pitch + gapsBefore(at) * ZONE_GAP;
}

function rectOf(box) {
  const { width, height, lane } = zoom();
  const y = AXIS + box.lane * lane + (lane - height) / 2;
  return { x: columnX(box.at), y, width, height };
}

// Where the word over the missing instances is. Between narrow boxes it may not meet the one over
// those that wait.
function missingX() {
  const x = columnX(count + data.waiting);
  return data.waiting ? Math.max(x, columnX(count) + WORD) : x;
}

function contentWidth() {
  const isWaiting = boxes.length > count;
  return Math.max(columnX(boxes.length) + 2, isWaiting ? missingX() + WORD : 0);
}

function contentHeight() {
  return AXIS + lanes.length * zoom().lane;
}

// The x of the line after so many executed instances.
function markX(executed) {
  const gap = zoom().pitch - zoom().width;
  return headWidth() + executed * zoom().pitch + (executed === count ? gap / 2 : 0);
}

// The places of the columns between two x, which may be some more.
function columnsBetween(left, right) {
  const { pitch } = zoom();
  const first = Math.floor((left - headWidth() - 2 * ZONE_GAP) / pitch) - 1;
  const last = Math.ceil((right - headWidth()) / pitch) + 1;
  return { first: Math.max(0, first), last: Math.min(boxes.length - 1, last) };
}
