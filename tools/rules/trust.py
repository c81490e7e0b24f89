"""The table of docs/MODEL.md of what contracts rest on, and its list for `run`, are what
tools/trusted prints."""

import re
import subprocess

FLAWS = [
    ("docs/MODEL.md", "| `epx_types/specs/Levels.antt` | not for `run` |"),
    ("crates/epx_types/specs/Limits.antt", "    + 0"),
]


def find(top):
    """Where docs/MODEL.md says of what contracts rest on what tools/trusted does not say."""
    page = top / "docs/MODEL.md"
    text = page.read_text()
    table, listing = (
        subprocess.run([top / "tools/trusted", *call], capture_output=True, text=True, check=True)
        for call in ([], ["run"])
    )
    if table.stdout not in text:
        number = text[: text.find("| Call |")].count("\n") + 1
        yield page, number, "tools/trusted prints another table"
    files = set(re.findall(r"^epx_\S+", listing.stdout, re.M))
    for number, line in enumerate(text.split("\n"), 1):
        row = re.match(r"\| `(epx_\w+/\S+\.(?:antt|rt))` \|", line)
        if row and row[1] not in files:
            yield page, number, f"run does not rest on {row[1]}, or it is named twice"
        files -= {row[1]} if row else set()
    for file in sorted(files):
        yield page, 1, f"run rests on {file}, which is not named"
