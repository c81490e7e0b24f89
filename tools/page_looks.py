"""Whether a page can be used by keys and pointers, and be read in any colours and widths. A module,
and no tool itself."""

from browser import CONTROL

# Each text with less contrast to what is behind it than 4.5, where that is of one colour.
PALE = """
(() => {
  const room = document.createElement("canvas").getContext("2d", { willReadFrequently: true });
  const numbers = (colour) => {
    room.clearRect(0, 0, 1, 1);
    room.fillStyle = colour;
    room.fillRect(0, 0, 1, 1);
    return [...room.getImageData(0, 0, 1, 1).data];
  };
  const light = (colour) => numbers(colour).slice(0, 3).map((it) => it / 255)
    .map((it) => (it <= 0.04045 ? it / 12.92 : ((it + 0.055) / 1.055) ** 2.4))
    .reduce((sum, it, at) => sum + it * [0.2126, 0.7152, 0.0722][at], 0);
  const behind = (it) => {
    while (it && numbers(getComputedStyle(it).backgroundColor)[3] === 0) it = it.parentElement;
    return it ? getComputedStyle(it).backgroundColor : "Canvas";
  };
  const texts = document.createTreeWalker(document.body, NodeFilter.SHOW_TEXT);
  const found = [];
  let seen = 0;
  while (texts.nextNode()) {
    const it = texts.currentNode.parentElement;
    if (!texts.currentNode.data.trim() || !it.checkVisibility()) continue;
    if (it.matches("button:disabled, script, style")) continue;
    seen += 1;
    const two = [light(getComputedStyle(it).color), light(behind(it))].sort((a, b) => b - a);
    const contrast = (two[0] + 0.05) / (two[1] + 0.05);
    if (contrast < 4.5) found.push([it.className, it.textContent, contrast]);
  }
  return [seen > 20, found];
})()
"""
# What a reader of screens needs: names of controls and boxes, rows with cells, one place for Tab.
ROLES = """
(() => {
  const named = (it) => it.getAttribute("aria-label") || it.labels?.length || it.textContent.trim();
  const cells = [...document.querySelectorAll(".box")];
  return [[...document.querySelectorAll("button, input, [role=grid], [role=gridcell]")]
      .filter((it) => !named(it)).map((it) => it.outerHTML),
    cells.every((it) => it.closest("[role=row]") && it.closest("[role=grid]")),
    cells.every((it) => !(Number(it.nextElementSibling?.ariaColIndex) <= it.ariaColIndex)),
    cells.filter((it) => it.tabIndex === 0).length, document.documentElement.lang];
})()
"""
ACTIVE = "document.activeElement.dataset.id ?? document.activeElement.id"
# Keys in turn, each with the box that has the focus then, in the page of examples/replicas.
KEYS = (
    ("ArrowRight", 0, "0.1"), ("ArrowRight", 0, "0.1"), ("ArrowLeft", 0, "0.0"),
    ("ArrowLeft", 0, "0.0"), ("ArrowUp", 0, "0.0"), ("ArrowDown", 0, "2.0"),
    ("ArrowDown", 0, "0.1"), ("ArrowDown", 0, "1.0"), ("ArrowRight", 0, "1.1"),
    ("ArrowUp", 0, "1.0"), ("End", 0, "1.1"), ("Home", 0, "1.0"), ("ArrowUp", 0, "0.1"),
    ("ArrowUp", 0, "2.0"), ("End", CONTROL, "2.2"),
    ("ArrowLeft", 0, "2.1"), ("ArrowLeft", 0, "2.3"), ("Home", CONTROL, "0.0"),
    ("PageDown", 0, "2.2"), ("PageUp", 0, "0.0"),
)  # fmt: skip


def try_keys(told, shown, path):
    """Presses keys, as one would who has no pointer, and then moves the pointer."""
    shown.open(path)
    for _ in range(12):
        shown.press("Tab")
        if shown.value("document.activeElement.matches('.box')"):
            break
    told.expect("keys", [shown.value(ACTIVE), shown.arrows()], ["0.0", 3])
    for key, modifiers, wanted in KEYS:
        shown.press(key, modifiers)
        told.expect("keys", [key, shown.value(ACTIVE)], [key, wanted])
    position = "document.getElementById('position').value"
    shown.press("Enter")
    told.expect("keys", shown.value(position), "1")
    shown.press("Escape")
    left = shown.value("document.querySelectorAll('.selected').length")
    told.expect("keys", [shown.arrows(), left], [0, 0])
    shown.value("document.getElementById('position').focus()")
    for key, wanted in ("ArrowRight", "2"), ("End", "6"), ("ArrowLeft", "5"), ("Home", "0"):
        shown.press(key)
        told.expect("keys", [key, shown.value(position)], [key, wanted])
    for name, wanted in ("smaller", "70 %"), ("smaller", "35 %"), ("larger", "70 %"):
        shown.value(f"document.getElementById('{name}').click()")
        told.expect("keys", shown.value("document.getElementById('zoom').textContent"), wanted)
    shown.value("document.querySelector('header .link').click()")
    told.expect("keys", shown.value(ACTIVE), "2.1")
    shown.press("Escape")
    shown.value("focusBox(2)")
    shown.resize(900, 700)
    told.expect("keys", shown.value(f"resize(), {ACTIVE}"), "0.1")
    shown.press("Escape")
    try_pointer(told, shown)
    told.expect("consoles", shown.take_errors(), [])


def try_pointer(told, shown):
    """The arrows are those of the box under the pointer, and of none beside it."""
    place = shown.value("""(() => {
      grid.scrollLeft = 0;
      const { x, y } = document.querySelector("[data-id='0.1']").getBoundingClientRect();
      return [x + 9, y + 9];
    })()""")
    shown.point(*place)
    told.expect("pointers", shown.arrows(), 4)
    shown.point(5, 5)
    told.expect("pointers", shown.arrows(), 0)


def try_looks(told, shown, path):
    """In light and dark, wide and narrow: texts can be read, and nothing is cut off."""
    pictures = set()
    for scheme in ("light", "dark"):
        shown.prefer(scheme)
        shown.open(path)
        for level in (2, 3, 4):
            shown.value(f"setLevel({level})")
            told.expect("colours", shown.value(PALE), [True, []])
            shown.value("focusBox(Math.min(2, boxes.length - 1)), setLevel(4)")
            told.expect("colours", shown.value(PALE), [True, []])
        told.expect("roles", shown.value(ROLES), [[], True, True, 1, "en"])
        pictures.add(shown.screenshot())
        shown.resize(340, 700)
        wide = "document.documentElement.scrollWidth - document.documentElement.clientWidth"
        told.expect("narrow windows", shown.value(wide), 0)
        shown.value("list.open = true, new Promise((done) => setTimeout(done, 50))")
        told.expect("narrow windows", shown.value(wide), 0)
        told.expect("colours", shown.value(PALE), [True, []])
    told.expect("pictures that differ", len(pictures), 2)
    shown.prefer("light")
    told.expect("consoles", shown.take_errors(), [])
