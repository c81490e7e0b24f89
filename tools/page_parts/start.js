// Puts all together, and answers the controls.
function goTo(to) {
  moveStore(to);
  showPosition();
  const x = markX(to), left = grid.scrollLeft;
  const isVisible = x >= left + headWidth() && x <= left + grid.clientWidth;
  if (!isVisible) grid.scrollLeft = x - grid.clientWidth / 2;
  draw(true);
}

function setLevel(to) {
  const at = selected() ?? columnsBetween(grid.scrollLeft + headWidth(), 0).first + 3;
  const offset = columnX(at) - grid.scrollLeft;
  level = Math.max(0, Math.min(ZOOMS.length - 1, to));
  resize();
  grid.scrollLeft = columnX(at) - Math.max(headWidth() + 8, offset);
  draw(true);
}

function find(event) {
  const at = placeOf.get(event.target.value.trim());
  event.target.setAttribute("aria-invalid", event.target.value !== "" && at === undefined);
  if (at !== undefined && event.type === "change") focusBox(at);
}

function listen() {
  const by = (id) => document.getElementById(id);
  by("position").addEventListener("input", (event) => goTo(Number(event.target.value)));
  by("smaller").addEventListener("click", () => setLevel(level - 1));
  by("larger").addEventListener("click", () => setLevel(level + 1));
  by("find").addEventListener("input", find);
  by("find").addEventListener("change", find);
  allArrows.addEventListener("change", () => draw(false));
  let isAsked = false;
  grid.addEventListener("scroll", () => {
    if (isAsked) return;
    isAsked = true;
    requestAnimationFrame(() => {
      isAsked = false;
      draw(false);
    });
  });
  storeRoom.addEventListener("scroll", scrollStore);
  window.addEventListener("resize", () => resize());
}

function start() {
  grid.setAttribute("aria-rowcount", rows.length);
  grid.setAttribute("aria-colcount", boxes.length + 1);
  grid.append(backdrop, ...rows, picture);
  document.getElementById("position").max = count;
  const arrows = boxes.reduce((sum, box) => sum + box.deps.length, 0);
  allArrows.checked = arrows <= FEW_ARROWS;
  showCounts();
  showBlockers();
  showFindings();
  moveStore(count);
  showPosition();
  listen();
  resize();
  showDetails();
  document.documentElement.dataset.opened = Math.round(performance.now());
}

start();
