// What is drawn: the part that is visible, and as much at both sides of it. Behind the boxes are
// frames and the position of the slider, and over them the numbers of the columns.
const axis = document.getElementById("axis");
const backdrop = element("div", "backdrop");
backdrop.setAttribute("aria-hidden", "true");
let region = null;

function axisLabels(first, last) {
  const step = [50, 10, 1, 1, 1][level];
  const made = [];
  for (let at = first; at <= last; at++) {
    const { kind } = boxes[at];
    const isFirst = at === count || at === count + data.waiting;
    if (kind === "executed" ? at % step : !isFirst) continue;
    const words = { waiting: "waiting", missing: "in no log" }[kind] ?? at.toLocaleString("en");
    const label = element("span", kind, words);
    label.style.left = `${kind === "missing" ? missingX() : columnX(at)}px`;
    if (kind !== "executed") label.style.width = "max-content";
    made.push(label);
  }
  return made;
}

function frameBoxes(first, last) {
  const { lane, pitch, width } = zoom();
  const made = [], room = Math.min(6, (pitch - width) / 2);
  for (const [leader, frame] of frames) {
    if (frame.last < first || frame.first > last) continue;
    const top = Math.min(...frame.lanes), bottom = Math.max(...frame.lanes);
    const left = columnX(frame.first) - room;
    const shown = element("div", "frame");
    shown.dataset.leader = leader;
    Object.assign(shown.style, {
      left: `${left}px`, width: `${columnX(frame.last) + width + room - left}px`,
      top: `${AXIS + top * lane + 6}px`, height: `${(bottom - top + 1) * lane - 12}px`,
    });
    made.push(shown);
  }
  return made;
}

// The part after the position of the slider, which is not executed yet there.
function laterPart() {
  const shade = element("div", "later"), line = element("div", "mark");
  const left = markX(position);
  shade.style.left = line.style.left = `${left}px`;
  shade.style.width = `${Math.max(0, markX(count) - left)}px`;
  return count ? [shade, line] : [];
}

// Draws what is visible, and a width of the view at both sides of it.
function draw(isForced) {
  const left = grid.scrollLeft, width = grid.clientWidth;
  const right = Math.min(left + width, contentWidth());
  const isInside = region && left >= region.left && right <= region.right;
  if (!isInside || isForced) {
    const end = Math.max(contentWidth(), width);
    region = { left: Math.max(0, left - width), right: Math.min(left + 2 * width, end) };
    region.columns = columnsBetween(region.left, region.right);
    const { first, last } = region.columns;
    syncBoxes(first, last);
    axis.replaceChildren(...axisLabels(first, last));
    backdrop.replaceChildren(...laterPart(), ...frameBoxes(first, last));
  }
  markBoxes();
  drawArrows();
}

// Draws all anew after a change of sizes.
function resize() {
  const hasFocus = drawn.get(state.active) === document.activeElement;
  for (const made of drawn.values()) made.remove();
  drawn.clear();
  const { width, height, lane, shows } = zoom();
  const sizes = {
    "--box-width": width, "--box-height": height, "--lane": lane, "--axis": AXIS,
    "--head": headWidth(), "--content": contentWidth(), "--height": contentHeight(),
  };
  for (const [name, value] of Object.entries(sizes)) grid.style.setProperty(name, `${value}px`);
  grid.dataset.shows = shows;
  // what was drawn would keep the lanes as wide as they were
  picture.style.width = picture.style.left = "0";
  axis.replaceChildren();
  backdrop.replaceChildren();
  document.getElementById("zoom").textContent = zoom().name;
  document.getElementById("smaller").disabled = level === 0;
  document.getElementById("larger").disabled = level === ZOOMS.length - 1;
  draw(true);
  if (hasFocus) drawn.get(state.active).focus({ preventScroll: true });
}
