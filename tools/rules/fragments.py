"""The fragments of docs/LIBRARY.md and the theorem of README.md are lines of sources."""

import re

from tree import sources

FLAWS = [
    ("docs/LIBRARY.md", "\n    let merged = nothing(alloc)?;"),
    ("README.md", "\n    ensures text { OnOk result (all is well) }"),
]


def find(top):
    """Blocks of docs/LIBRARY.md, and clauses and definitions of README.md, whose lines do not
    follow each other in a source."""
    texts = ["\n".join(lines) for path, lines in sources(top) if path.suffix != ".edit"]
    forms = ((top / "docs/LIBRARY.md", ""), (top / "README.md", "(?:ensures|pub record) "))
    for page, begin in forms:
        for block in re.finditer(rf"^    {begin}.*\n(?:^    .*\n)*", page.read_text(), re.M):
            lines = [re.sub(r"\s+//.*$", "", line.strip()) for line in block[0].split("\n")]
            form = r"(?s:.*?)".join(re.escape(line) for line in lines if line)
            if not any(re.search(form, text) for text in texts):
                number = page.read_text()[: block.start()].count("\n") + 1
                yield page, number, "no source has these lines"
