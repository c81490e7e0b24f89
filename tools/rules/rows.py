"""The rows of docs/MODEL.md name no file and no definition that the crate does not have."""

import re

from definitions import definitions

FLAWS = [
    (
        "docs/MODEL.md",
        "## `crates/epx_components/specs`\n| `Ranks`: `IsLeader` | not there | own | none |",
    ),
]


def find(top):
    """Rows of docs/MODEL.md whose file, or whose definition, the crate does not have."""
    page = top / "docs/MODEL.md"
    known, crates = definitions(top), []
    for number, line in enumerate(page.read_text().split("\n"), 1):
        if re.match("###? ", line):
            crates = re.findall(r"crates/(\w+)/specs", line)
        row = re.match(r"\| ((?:`\w+`: .*?; )*`\w+`: [^|]*) \|", line)
        for part in row[1].split("; ") if row and crates else []:
            file, *names = re.findall(r"`(\w+)`", part)
            having = [known[crate, file] for crate in crates if (crate, file) in known]
            for name in sorted(set(names) - having[0]) if having else names:
                yield page, number, f"{file} of {crates[0]} does not have {name}"
