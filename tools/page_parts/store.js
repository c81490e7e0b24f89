// The store after each position. What a command wrote is known; the value before it is that of the
// last write before. So the store goes on and back, and no operation is executed here.
const ROW_HEIGHT = 27, DRAWN_ROWS = 600;
const current = data.keys.map(() => null);
const storeTable = document.getElementById("store");
const storeRoom = storeTable.parentElement;
let position = 0;
// The keys of the store by their place in the table, and the place of the first row that is drawn.
let present = [];
let firstRow = 0;

for (const box of boxes.slice(0, count)) {
  for (const write of box.writes) {
    const [key, after] = write;
    write.push(current[key]);
    current[key] = after;
  }
}
current.fill(null);

// Goes to the store after so many executed instances.
function moveStore(to) {
  while (position < to) {
    for (const [key, after] of boxes[position].writes) current[key] = after;
    position += 1;
  }
  while (position > to) {
    position -= 1;
    for (const [key, , before] of boxes[position].writes) current[key] = before;
  }
}

// The values before the last command of the keys that it changed.
function changedKeys() {
  const writes = position > 0 ? boxes[position - 1].writes : [];
  const changed = writes.filter(([, after, before]) => before !== after);
  return new Map(changed.map(([key, , before]) => [key, before]));
}

function storeRow(key, place, changed) {
  const name = element("th", "", data.shown[key]);
  name.scope = "row";
  const row = element("tr", "", name, element("td", "value", current[key]));
  const before = changed.get(key);
  const words = before === null ? "new" : `was ${before}`;
  row.append(element("td", "change", before === undefined ? "" : words));
  if (before !== undefined) row.className = "changed";
  row.dataset.key = data.keys[key];
  row.setAttribute("aria-rowindex", place + 2);
  return row;
}

// A row in place of so many that are not drawn.
function emptyRow(rows) {
  const row = element("tr", "empty");
  row.setAttribute("aria-hidden", "true");
  row.style.height = `${rows * ROW_HEIGHT}px`;
  return row;
}

// Draws the rows around those that are visible.
function drawStore() {
  const middle = Math.floor(storeRoom.scrollTop / ROW_HEIGHT);
  firstRow = Math.max(0, Math.min(present.length - DRAWN_ROWS, middle - DRAWN_ROWS / 2));
  const shown = present.slice(firstRow, firstRow + DRAWN_ROWS), changed = changedKeys();
  const rows = shown.map((key, at) => storeRow(key, firstRow + at, changed));
  const rest = present.length - firstRow - shown.length;
  storeTable.tBodies[0].replaceChildren(
    ...(firstRow ? [emptyRow(firstRow)] : []), ...rows, ...(rest ? [emptyRow(rest)] : []));
}

function scrollStore() {
  const first = Math.floor(storeRoom.scrollTop / ROW_HEIGHT);
  const last = first + Math.ceil(storeRoom.clientHeight / ROW_HEIGHT);
  const end = firstRow + DRAWN_ROWS;
  if (first < firstRow || (last > end && end < present.length)) drawStore();
}

// Scrolls to the first row that is changed, where it is not visible.
function showChange() {
  const changed = changedKeys();
  const place = present.findIndex((key) => changed.has(key));
  const top = place * ROW_HEIGHT, height = storeRoom.clientHeight - 2 * ROW_HEIGHT;
  if (place < 0) return;
  if (top < storeRoom.scrollTop || top > storeRoom.scrollTop + height) {
    storeRoom.scrollTop = Math.max(0, top - height / 2);
  }
}

// What a command wrote: each key with its value before and after.
function writeWords(box) {
  return box.writes.map(([key, after, before]) => {
    if (before === after) return `${data.shown[key]}: ${after ?? "absent"} again`;
    return `${data.shown[key]}: ${before ?? "absent"} → ${after ?? "absent"}`;
  }).join("; ");
}

function showPosition() {
  const box = boxes[position - 1];
  const words = `${position.toLocaleString("en")} of ${counted(count, "instance", "instances")}`;
  document.getElementById("after").textContent = box ? `${words}: ${box.id}` : words;
  const slider = document.getElementById("position");
  slider.value = position;
  slider.setAttribute("aria-valuetext", box ? `after ${words}, ${box.id}` : "the empty store");
  present = data.keys.map((_, key) => key).filter((key) => current[key] !== null);
  const isEmpty = present.length === 0;
  const wrote = box ? `${box.id} wrote ${writeWords(box) || "nothing"}.` : "Nothing is executed.";
  document.getElementById("wrote").textContent = isEmpty ? `${wrote} The store is empty.` : wrote;
  storeTable.hidden = isEmpty;
  storeTable.setAttribute("aria-rowcount", present.length + 1);
  drawStore();
  showChange();
}
