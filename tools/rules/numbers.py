"""The numbers of laws and of worked cases on the pages are those of the tree."""

import re

from tree import pages

FLAWS = [
    ("docs/TESTING.md", "There are 2 laws."),
    ("docs/TESTING.md", "There are 2 worked cases."),
]


def find(top):
    """Numbers of laws and of worked cases that are not those of the tree."""
    sources = [path.read_text() for path in top.glob("crates/epx_laws/src/*.rt")]
    data = [path for path in top.glob("crates/epx_cases/data/*.txt") if path.stem != "broken"]
    scripts = [path.read_text() for path in data]
    counts = {
        "laws": sum(len(re.findall(r"^pub fn ", source, re.M)) for source in sources),
        "worked cases": sum(len(re.findall(r"^----$", script, re.M)) for script in scripts),
    }
    for page, lines in pages(top):
        for number, line in enumerate(lines, 1):
            for told, what in re.findall(r"\b(\d+) (laws|worked cases)\b", line):
                if int(told) != counts[what]:
                    yield page, number, f"there are {counts[what]} {what}"
