"""The words of the tables of docs/MODEL.md are the comments of the definitions."""

import subprocess

FLAWS = [
    (
        "docs/MODEL.md",
        "## `crates/epx_types/specs`\n| Definition | In plain words | From | Rows |\n"
        "|---|---|---|---|\n| `Keys`: `key_cmp` | by length | own | none |",
    ),
]


def find(top):
    """Rows of docs/MODEL.md that tools/docs model writes otherwise."""
    page = top / "docs/MODEL.md"
    words = [top / "tools/docs", "model", "--print"]
    made = subprocess.run(words, capture_output=True, text=True, check=True).stdout.split("\n")
    for number, (line, wanted) in enumerate(zip(page.read_text().split("\n"), made), 1):
        if line != wanted:
            yield page, number, "tools/docs model writes another text"
