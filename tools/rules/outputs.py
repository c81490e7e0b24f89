"""Outputs that a page shows are those of examples/ or of a worked case. Those of files that a page
makes are compared by `tools/docs commands`."""

import re

from tree import pages

FLAWS = [
    ("docs/CLI.md", '    ["executed",9,"waiting",9,"components",9]'),
    ("docs/CLI.md", '    ["uncovered",9,9,9,9]'),
]


def blocks(lines):
    """The outputs that a page shows: an indented report from its header on, or a lone line."""
    block = []
    for number, line in enumerate([*lines, ""], 1):
        begins = line.startswith('    ["executed"')
        if block and (begins or not line.startswith('    ["')):
            yield number - len(block), "\n".join(block) + "\n"
            block = []
        if begins or block and line.startswith('    ["'):
            block.append(line.strip())
        elif line.startswith('    ["'):
            yield number, line.strip() + "\n"


def is_made(lines, number):
    """Whether an output follows a command over files that its page makes in /tmp."""
    at = number - 1
    while at and (not lines[at - 1].strip() or lines[at - 1].startswith('    ["')):
        at -= 1
    return at > 0 and re.match(r"    \./epx .*/tmp/", lines[at - 1]) is not None


def find(top):
    """Outputs on the pages for users that neither an example nor a worked case has."""
    kinds = ("report", "order", "levels", "blockers", "audit", "check", "compare", "history",
             "linear")  # fmt: skip
    places = [path for kind in kinds for path in sorted(top.glob(f"examples/**/*.{kind}"))]
    texts = [path.read_text() for path in [*places, top / "crates/epx_cases/stdout"]]
    for page, lines in pages(top):
        if page.parent in (top, top / "docs"):
            for number, block in blocks(lines):
                if not any(block in text for text in texts) and not is_made(lines, number):
                    yield page, number, "no example has this output"
