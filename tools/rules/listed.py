"""docs/MODEL.md names each file of specs/ and each definition of it that a public contract
uses."""

import re

from definitions import definitions, used_definitions

FLAWS = [
    ("crates/epx_ranking/specs/inner/Unlisted.antt", "-- without a row"),
    (
        "crates/epx_merge/src/unlisted.rt",
        "ghost use Rattle.epx_merge.specs.LogLines.{meaning_at};\npub fn unlisted()\n"
        "    ensures { meaning_at }\n{",
    ),
]


def find(top):
    """Files of specs/, and definitions of public clauses, that docs/MODEL.md does not name.

    A law is named as the function whose contract it is, and the files of laws need no name."""
    page = top / "docs/MODEL.md"
    codes = re.findall(r"`([^`]+)`", page.read_text())
    named = {word for code in codes if "/" not in code for word in re.findall(r"\w+", code)}
    for crate, file in definitions(top):
        if file not in named and not file.endswith("Laws"):
            yield page, 1, f"{crate} has a file {file}, which is not named"
    for crate, file, name in sorted(set(used_definitions(top))):
        law = re.sub(r"(?<=.)([A-Z])", r"_\1", name).lower()
        if name not in named and law not in named and not file.endswith("Laws"):
            yield page, 1, f"{name} of {crate} is not named, and a public contract uses it"
