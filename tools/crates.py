"""What crates.txt says. A module, and no tool itself."""

import re


def crates_of(top):
    """The crates of each section of crates.txt, and what each crate uses."""
    sections, uses = {}, {}
    section = sections.setdefault("", set())
    for line in (top / "crates.txt").read_text().split("\n"):
        if line.startswith("# "):
            section = sections.setdefault(re.split("[:.]", line[2:])[0], set())
        elif found := re.match(r"(\w+):(.*)", line):
            section.add(found[1])
            uses[found[1]] = set(found[2].split())
    return sections, uses
