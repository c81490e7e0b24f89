"""The limits of docs/FORMAT.md are those of the definitions."""

import re

# Where the constants and the definitions have the limits of docs/FORMAT.md.
CONSTANTS = "crates/epx_types/src/limits.rt"
LIMITS = {
    "Logs": (CONSTANTS, r"MAX_LOGS: usize = ([\d_]+)"),
    "Bytes of one log": (CONSTANTS, r"MAX_LOG_BYTES: usize = ([\d_]+)"),
    "Distinct instances": (CONSTANTS, r"MAX_INSTANCES: usize = ([\d_]+)"),
    "Bytes of one line, without its line feed": (
        "crates/epx_lines/specs/Meaning.antt",
        r"max_line_bytes = (\d+)",
    ),
    "Elements written in `deps`": ("crates/epx_types/specs/Instances.antt", r"few_deps.*≤ (\d+)"),
    "Operations in `ops`": ("crates/epx_types/specs/Instances.antt", r"few_ops.*≤ (\d+)"),
}

FLAWS = [("docs/FORMAT.md", "| Logs | 65 |")]


def find(top):
    """Limits of docs/FORMAT.md that are not those of the definitions."""
    page = top / "docs/FORMAT.md"
    for number, line in enumerate(page.read_text().split("\n"), 1):
        row = re.match(r"\| ([^|]*) \| ([\d,]+)(?: |$)", line)
        if row and row[1] in LIMITS:
            path, form = LIMITS[row[1]]
            limit = re.search(form, (top / path).read_text())[1]
            if int(limit) != int(row[2].replace(",", "")):
                yield page, number, f"the limit is {limit}"
