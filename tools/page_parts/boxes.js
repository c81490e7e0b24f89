// The boxes near what is visible. Others are no elements of the page, but for the one with the
// focus.
const grid = document.getElementById("lanes");
const drawn = new Map();
const state = { active: 0, hovered: null, isCleared: true };
const rows = data.lanes.map((replica, at) => {
  const head = element("div", "head", element("b", "", `${replica}`));
  head.setAttribute("role", "rowheader");
  head.setAttribute("aria-colindex", 1);
  head.setAttribute("aria-label", `replica ${replica}`);
  const committed = lanes[at].filter((place) => boxes[place].kind !== "missing").length;
  head.append(element("span", "count", counted(committed, "instance", "instances")));
  const row = element("div", "lane", head);
  row.setAttribute("role", "row");
  row.setAttribute("aria-rowindex", at + 1);
  return row;
});

// The box whose arrows are drawn: under the pointer, else with the focus, or null.
function selected() {
  return state.hovered ?? (state.isCleared ? null : state.active);
}

function opsLines(box) {
  const isShort = box.ops.length <= OPS_SHOWN;
  const shown = box.ops.slice(0, isShort ? OPS_SHOWN : OPS_SHOWN - 1);
  const lines = shown.map((op) => element("span", "op", op));
  const rest = box.ops.length - shown.length;
  if (rest) lines.push(element("span", "op more", `and ${rest} more`));
  if (!box.ops.length) lines.push(element("span", "op more", "no operations"));
  return lines;
}

function contentOf(box) {
  const { shows } = zoom();
  if (shows === "none") return [];
  const name = element("span", "name", element("b", "", box.id));
  if (box.faults && shows !== "name") name.append(element("span", "fault", box.faults.join(", ")));
  if (shows === "name") return [name];
  const end = element("span", "reply", outcome(box));
  const lines = shows === "all" && box.ops ? opsLines(box) : [];
  if (shows === "some" && box.ops) lines.push(element("span", "op", box.ops[0] ?? "no operations"));
  return [name, ...lines, end];
}

function makeBox(box) {
  const made = element("div", `box ${box.kind}`, ...contentOf(box));
  if (box.aborts) made.classList.add("aborts");
  if (box.faults) made.classList.add("faulty");
  made.dataset.at = box.at;
  made.dataset.id = box.id;
  made.setAttribute("role", "gridcell");
  made.setAttribute("aria-colindex", box.at + 2);
  made.setAttribute("aria-label", sentence(box));
  made.style.left = `${columnX(box.at)}px`;
  return made;
}

// Makes the boxes that are not there, each behind those that are left of it in its lane.
function addBoxes(places) {
  const next = rows.map((row) => row.children[1]);
  for (const at of places) {
    const { lane } = boxes[at];
    while (next[lane] && Number(next[lane].dataset.at) < at) {
      next[lane] = next[lane].nextElementSibling;
    }
    if (drawn.has(at)) continue;
    const made = makeBox(boxes[at]);
    drawn.set(at, made);
    rows[lane].insertBefore(made, next[lane] ?? null);
  }
}

function syncBoxes(first, last) {
  for (const [at, made] of drawn) {
    if ((at < first || at > last) && at !== state.active) {
      made.remove();
      drawn.delete(at);
    }
  }
  const places = [];
  for (let at = first; at <= last; at++) places.push(at);
  if (state.active < first) places.unshift(state.active);
  if (state.active > last && boxes.length) places.push(state.active);
  addBoxes(places);
}

function markBoxes() {
  const box = boxes[selected()];
  const deps = new Set(box?.deps), users = new Set(box?.users);
  for (const [at, made] of drawn) {
    made.tabIndex = at === state.active ? 0 : -1;
    made.classList.toggle("selected", box !== undefined && at === box.at);
    made.classList.toggle("is-dep", deps.has(at));
    made.classList.toggle("is-user", users.has(at));
    made.setAttribute("aria-selected", box !== undefined && at === box.at);
  }
}
