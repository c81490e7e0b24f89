// The focus, the keys and the pointer.
function focusBox(at) {
  if (boxes[at] === undefined) return;
  Object.assign(state, { active: at, hovered: null, isCleared: false });
  showColumn(at);
  draw(true);
  const made = drawn.get(at);
  made.focus({ preventScroll: true });
  made.scrollIntoView({ block: "nearest", inline: "nearest" });
  showDetails();
}

// Scrolls so that a column is visible. The lanes beside it are drawn then.
function showColumn(at) {
  const { width } = zoom(), x = columnX(at), left = grid.scrollLeft;
  const room = Math.min(width, grid.clientWidth / 4);
  if (x < left + headWidth() + 8) grid.scrollLeft = x - headWidth() - room;
  if (x + width > left + grid.clientWidth) grid.scrollLeft = x + width + room - grid.clientWidth;
}

function clearBox() {
  Object.assign(state, { hovered: null, isCleared: true });
  draw(false);
  showDetails();
}

// Where a key leads from a box, or undefined.
function placeByKey(key, isAll, at) {
  const lane = lanes[boxes[at].lane], index = lane.indexOf(at), last = boxes.length - 1;
  switch (key) {
    case "ArrowLeft": return lane[index - 1];
    case "ArrowRight": return lane[index + 1];
    case "ArrowUp": return at - 1;
    case "ArrowDown": return at + 1;
    case "PageUp": return Math.max(0, at - 10);
    case "PageDown": return Math.min(last, at + 10);
    case "Home": return isAll ? 0 : lane[0];
    case "End": return isAll ? last : lane.at(-1);
  }
  return undefined;
}

const MOVES = ["ArrowLeft", "ArrowRight", "ArrowUp", "ArrowDown", "PageUp", "PageDown", "Home",
  "End"];

grid.addEventListener("keydown", (event) => {
  const made = event.target.closest(".box");
  if (!made || event.altKey || event.metaKey) return;
  if (MOVES.includes(event.key)) {
    event.preventDefault();
    focusBox(placeByKey(event.key, event.ctrlKey, Number(made.dataset.at)));
  } else if (event.key === "Enter" || event.key === " ") {
    event.preventDefault();
    goTo(Math.min(count, state.active + 1));
  }
});

document.addEventListener("keydown", (event) => {
  if (event.key === "Escape") clearBox();
});

grid.addEventListener("focusin", (event) => {
  const at = event.target.closest(".box")?.dataset.at;
  if (at === undefined || (Number(at) === state.active && !state.isCleared)) return;
  Object.assign(state, { active: Number(at), isCleared: false });
  draw(false);
  showDetails();
});

function hover(at) {
  if (at === state.hovered) return;
  state.hovered = at;
  draw(false);
  showDetails();
}

grid.addEventListener("pointerover", (event) => {
  const at = event.target.closest(".box")?.dataset.at;
  if (event.pointerType === "mouse") hover(at === undefined ? null : Number(at));
});
grid.addEventListener("pointerleave", () => hover(null));
grid.addEventListener("click", (event) => {
  const at = event.target.closest(".box")?.dataset.at;
  if (at !== undefined) focusBox(Number(at));
});
grid.addEventListener("dblclick", (event) => {
  const at = event.target.closest(".box")?.dataset.at;
  if (at !== undefined) goTo(Math.min(count, Number(at) + 1));
});

document.addEventListener("click", (event) => {
  const button = event.target.closest("button");
  if (button?.dataset.at !== undefined) focusBox(Number(button.dataset.at));
  if (button?.dataset.position !== undefined) goTo(Number(button.dataset.position));
});
