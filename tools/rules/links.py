"""Links of pages lead to files."""

import re

from tree import pages

FLAWS = [("README.md", "[nothing](docs/NOTHING.md)")]


def find(top):
    for page, lines in pages(top):
        for number, line in enumerate(lines, 1):
            for link in re.findall(r"\]\(([^)#\s]+)[^)]*\)", line):
                if "://" not in link and not (page.parent / link).exists():
                    yield page, number, f"dead link {link}"
