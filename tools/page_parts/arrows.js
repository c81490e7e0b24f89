// The arrows, as lines of SVG over the boxes.
const SVG = "http://www.w3.org/2000/svg";
const FEW_ARROWS = 60, FEW_COLUMNS = 500;
const allArrows = document.getElementById("all-arrows");
const picture = document.createElementNS(SVG, "svg");
picture.setAttribute("class", "arrows");
picture.setAttribute("aria-hidden", "true");

function arrowHead(kind) {
  const head = document.createElementNS(SVG, "marker");
  const sizes = { id: `head-${kind}`, viewBox: "0 0 8 8", refX: 7, refY: 4, markerWidth: 8,
    markerHeight: 8, markerUnits: "userSpaceOnUse", orient: "auto" };
  for (const [name, value] of Object.entries(sizes)) head.setAttribute(name, value);
  const shape = document.createElementNS(SVG, "path");
  shape.setAttribute("d", "M0 0.5 8 4 0 7.5Z");
  shape.setAttribute("class", kind);
  head.append(shape);
  return head;
}

const heads = document.createElementNS(SVG, "defs");
heads.append(...["faint", "dep", "user", "late"].map(arrowHead));
const lines = document.createElementNS(SVG, "g");
picture.append(heads, lines);

// A curve from a box to another. Between lanes it leads through the room between them, and the two
// of a pair that depend on each other are side by side. Within a lane it passes over the boxes.
function curve(from, to) {
  const a = rectOf(from), b = rectOf(to), share = a.x <= b.x ? 0.6 : 0.4;
  const x1 = a.x + a.width * share, x2 = b.x + b.width * share;
  if (from.lane === to.lane) {
    const rise = (zoom().lane - a.height) * 0.6, third = (x2 - x1) / 4;
    return `M${x1} ${a.y}C${x1 + third} ${a.y - rise} ${x2 - third} ${b.y - rise} ${x2} ${b.y}`;
  }
  const isDown = from.lane < to.lane;
  const y1 = isDown ? a.y + a.height : a.y, y2 = isDown ? b.y : b.y + b.height;
  const bend = (y2 - y1) * 0.7;
  return `M${x1} ${y1}C${x1} ${y1 + bend} ${x2} ${y2 - bend} ${x2} ${y2}`;
}

// Whether an arrow has a part in the region that is drawn.
function isNear({ from, to }) {
  const [left, right] = [columnX(from), columnX(to)].sort((a, b) => a - b);
  return left <= region.right && right + zoom().width >= region.left;
}

function line(kind, from, to) {
  const made = document.createElementNS(SVG, "path");
  made.setAttribute("class", kind);
  made.setAttribute("d", curve(boxes[from], boxes[to]));
  made.setAttribute("marker-end", `url(#head-${kind})`);
  made.dataset.from = boxes[from].id;
  made.dataset.to = boxes[to].id;
  return made;
}

// The arrows that begin in the columns that are drawn, or end there.
function faintLines() {
  const { first, last } = region.columns;
  const found = [];
  if (!allArrows.checked || last - first > FEW_COLUMNS) return found;
  for (let at = first; at <= last; at++) {
    for (const to of boxes[at].deps) found.push(line("faint", at, to));
    for (const from of boxes[at].users) {
      if (from < first || from > last) found.push(line("faint", from, at));
    }
  }
  return found;
}

function drawArrows() {
  const box = boxes[selected()];
  const found = faintLines();
  found.push(...latePairs.filter(isNear).map(({ from, to }) => line("late", from, to)));
  if (box) {
    found.push(...box.users.map((from) => line("user", from, box.at)));
    found.push(...box.deps.map((to) => line("dep", box.at, to)));
  }
  const width = region.right - region.left, height = contentHeight();
  picture.setAttribute("viewBox", `${region.left} 0 ${width} ${height}`);
  Object.assign(picture.style, { left: `${region.left}px`, width: `${width}px`,
    height: `${height}px` });
  lines.replaceChildren(...found);
}
