"""Each file of specs/ is in the folder of its kind: in specs/ itself where a call for users or a
law rests on it, as tools/trusted finds; else in specs/between/ where a public contract leads to it;
else in specs/inner/."""

import re
import subprocess

from definitions import definitions, used_definitions

FLAWS = [
    ("crates/epx_merge/specs/Ranks.antt", "-- used by nothing"),
    ("crates/epx_merge/specs/between/Ranks.antt", "-- used by nothing"),
]


def named_by_contracts(top, paths):
    """The files that clauses of public functions, or files that these name, import."""
    form = r"\bRattle\.(\w+)\.specs\.(?:between\.|inner\.)?(\w+)"
    uses = {key: set(re.findall(form, path.read_text())) for key, path in paths.items()}
    reached = {(crate, file) for crate, file, _ in used_definitions(top)}
    while more := {used for key in reached for used in uses.get(key, set())} - reached:
        reached |= more
    return reached


def find(top):
    """Files of specs/ in the folder of another kind."""
    known, words = definitions(top), [top / "tools/trusted", "--files"]
    found = subprocess.run(words, capture_output=True, text=True, check=True).stdout.split()
    paths = {(path.relative_to(top).parts[1], path.stem): path
             for path in sorted(top.glob("crates/*/specs/**/*.antt"))}  # fmt: skip
    named = named_by_contracts(top, paths)
    for key in sorted(known):
        path = paths[key]
        is_believed = str(path.relative_to(top / "crates")) in found
        kind = "specs" if is_believed else "between" if key in named else "inner"
        if path.parent.name != kind:
            yield path, 1, f"its place is the folder {kind}/"
