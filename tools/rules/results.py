"""docs/results/README.md names each page of that folder, and no other."""

import re

FLAWS = [
    ("docs/results/unlisted.md", "# unlisted"),
    ("docs/results/README.md", "a page (gone.md)"),
]


def find(top):
    """Pages of docs/results that its README does not name, and names without a page."""
    page = top / "docs/results/README.md"
    named = set(re.findall(r"\(([a-z0-9-]+\.md)\)", page.read_text()))
    there = {path.name for path in page.parent.glob("*.md")} - {"README.md"}
    for name in sorted(named ^ there):
        why = "there is no such page" if name in named else "it is not named"
        yield page, 1, f"{name}: {why}"
