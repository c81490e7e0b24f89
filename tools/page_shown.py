"""What a browser shows of a page: its boxes, arrows, stores and lists. A module, and no tool
itself."""

from browser import Browser

EACH_BOX = """
boxes.map((box) => {
  focusBox(box.at);
  const made = document.activeElement;
  const arrows = (kind) => [...document.querySelectorAll(`g path.${kind}`)]
    .map((path) => [path.dataset.from, path.dataset.to]);
  return { id: made.dataset.id, kind: made.classList[1], deps: arrows("dep"),
    users: arrows("user"), end: made.querySelector(".reply").textContent,
    ops: [...made.querySelectorAll(".op")].map((op) => op.textContent),
    all: [...document.querySelectorAll("#details .ops li")].map((op) => op.textContent) };
})
"""
# The boxes within each frame, by what is drawn.
FRAMES = """
(() => {
  setLevel(0);
  grid.scrollLeft = 0;
  draw(true);
  const found = {};
  const rects = [...document.querySelectorAll(".box")]
    .map((box) => [box.dataset.id, box.getBoundingClientRect()]);
  for (const frame of document.querySelectorAll(".backdrop .frame")) {
    const { left, right, top, bottom } = frame.getBoundingClientRect();
    found[frame.dataset.leader] = rects.filter(([, it]) => it.left >= left && it.right <= right
      && it.top >= top && it.bottom <= bottom).map(([id]) => id);
  }
  setLevel(4);
  return found;
})()
"""
LIST = """
(async () => {
  const list = document.getElementById("list");
  list.open = true;
  await new Promise((done) => setTimeout(done, 50));
  return [...list.querySelectorAll("tbody tr")].map(
    (row) => [...row.cells].map((cell) => cell.textContent));
})()
"""
STORE = """
(() => {
  const slider = document.getElementById("position");
  slider.value = %d;
  slider.dispatchEvent(new Event("input"));
  const rows = [...document.querySelectorAll("#store tbody tr[data-key]")];
  return [rows.map((row) => [row.dataset.key, row.cells[1].textContent]),
    rows.filter((row) => row.className === "changed").map((row) => row.dataset.key),
    document.getElementById("wrote").textContent];
})()
"""
# The rows of a long store, of which few are drawn, while it is scrolled.
LONG_STORE = """
(async () => {
  const room = document.getElementById("store").parentElement, found = new Map();
  let most = 0;
  for (let top = 0; top < room.scrollHeight; top += room.clientHeight / 2) {
    room.scrollTop = top;
    await new Promise((done) => requestAnimationFrame(() => setTimeout(done)));
    const { top: begin, bottom: end } = room.getBoundingClientRect();
    const rows = [...room.querySelectorAll("tr[data-key]")];
    most = Math.max(most, rows.length);
    for (const row of rows) {
      const rect = row.getBoundingClientRect();
      if (rect.bottom <= begin || rect.top >= end) continue;
      found.set(row.dataset.key, row.cells[1].textContent);
    }
  }
  return [[...found], most];
})()
"""
FOCUS = """
(() => {
  const input = document.getElementById("find");
  input.value = "%s";
  input.dispatchEvent(new Event("change"));
  return [...document.querySelectorAll("g path:is(.dep, .user)")]
    .map((path) => [path.dataset.from, path.dataset.to]);
})()
"""
# The places of the boxes that are drawn, and whether they fill what is visible, after a scroll.
SCROLLED = """
(async () => {
  setLevel(%d);
  grid.scrollLeft = %f * grid.scrollWidth;
  await new Promise((done) => requestAnimationFrame(() => setTimeout(done)));
  const { left, right } = grid.getBoundingClientRect();
  const seen = [...document.querySelectorAll(".box")]
    .map((box) => [box.getBoundingClientRect(), Number(box.dataset.at)])
    .filter(([it]) => it.right > left && it.left < right);
  const places = seen.map(([, at]) => at).sort((a, b) => a - b);
  const isWhole = places.every((at, index) => !index || at === places[index - 1] + 1);
  const rects = seen.map(([it]) => it);
  const room = zoom().pitch + 2 * ZONE_GAP + 2 * WORD;
  return isWhole && Math.min(...rects.map((it) => it.left)) < left + headWidth() + room
    && Math.max(...rects.map((it) => it.right)) > right - room;
})()
"""


class Shown(Browser):
    """A page in a browser, and what is seen there."""

    def open(self, path):
        self.resize(1280, 900)
        return super().open(path)

    def take_errors(self):
        found, self.errors = self.errors, []
        return found

    def each_box(self):
        return self.value(EACH_BOX)

    def frames(self):
        return {leader: sorted(names) for leader, names in self.value(FRAMES).items()}

    def list_rows(self):
        return self.value(LIST)

    def store(self, position):
        return self.value(STORE % position)

    def long_store(self):
        """The rows of a store that is scrolled from its head to its end, and the most elements."""
        return self.value(LONG_STORE)

    def focus(self, name):
        """Goes to a box by its name. Returns the arrows that are shown."""
        return set(map(tuple, self.value(FOCUS % name)))

    def is_whole(self, level, share):
        """Whether all boxes are drawn that are visible after a scroll to a share of the width."""
        return self.value(SCROLLED % (level, share))

    def late_arrows(self):
        script = "[...document.querySelectorAll('g path.late')].map((it) => it.dataset)"
        self.value("setLevel(0)")
        return {(it["from"], it["to"]) for it in self.value(f"{script}.map((it) => ({{...it}}))")}

    def marked(self):
        """The words of the boxes that have a fault."""
        found = self.value("""setLevel(4), boxes.map((box) => {
          focusBox(box.at);
          const fault = document.activeElement.querySelector(".fault");
          return [box.id, fault?.textContent.split(", ")];
        })""")
        return {name: words for name, words in found if words}

    def findings(self):
        return self.value("""[...document.querySelectorAll("#findings li")]
          .map((it) => /^[0-9.]+/.exec(it.textContent)[0])""")

    def blockers(self):
        """The missing instances with their numbers, or None where the page has none."""
        if self.value("document.getElementById('blockers').hidden"):
            return None
        return self.value("""[...document.querySelectorAll("#blockers button")].map((it) => {
          it.click();
          const box = document.activeElement;
          return [box.dataset.id, box.querySelector(".reply").textContent];
        })""")

    def count_boxes(self):
        return self.value("document.querySelectorAll('.box').length")

    def arrows(self):
        return self.value("document.querySelectorAll('g path:is(.dep, .user)').length")
