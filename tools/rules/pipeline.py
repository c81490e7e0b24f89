"""The boxes and the arrows of docs/pipeline.dot are those of crates.txt."""

from crates import crates_of
from drawings import arrows_between, arrows_of, boxes_of, wrong_arrows

# The sections of crates.txt whose crates are not drawn.
UNDRAWN = ("Vocabulary", "Tests and an example")

FLAWS = [
    ("crates.txt", "# Engine: more\nepx_more:"),
    ("crates.txt", "# Program: more\nepx_words: epx_types clap"),
]


def find(top):
    """Boxes and arrows of docs/pipeline.dot that are not those of crates.txt. There an arrow leads
    from a crate to one that uses it."""
    page = top / "docs/pipeline.dot"
    sections, uses = crates_of(top)
    wanted = {name for key, names in sections.items() if key not in UNDRAWN for name in names}
    boxes = boxes_of(page.read_text())
    for name in sorted(wanted ^ set(boxes)):
        yield page, 1, f"it lacks {name}" if name in wanted else f"{name} is no crate to draw"
    for name, label in boxes.items():
        if label.split("\\n")[0] != name:
            yield page, 1, f"the box of {name} has another name"
    arrows = arrows_between(wanted & set(boxes), lambda crate: uses.get(crate, set()))
    yield from wrong_arrows(page, arrows_of(page.read_text()), {(b, a) for a, b in arrows})
