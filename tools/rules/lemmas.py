"""A lemma that other files may use has a name of the form Head-property: what its conclusion speaks
of, and what holds of it."""

import re

FLAWS = [("crates/epx_graph/proofs/MissingIdLemmas.antt", "pub nothing_is_missing : IsFound")]
# Values among the lemmas.
DATA = {"first_entry", "within_reach"}


def outside_of_records(lines):
    """The lines that are in no declaration of a record, with their numbers."""
    depth = None
    for number, line in enumerate(lines, 1):
        indent = len(line) - len(line.lstrip())
        if depth is not None and line.strip() and indent <= depth:
            depth = None
        if depth is None and re.match(r" *(pub )?record [A-Z]", line):
            depth = indent
        if depth is None:
            yield number, line


def find(top):
    """Public lemmas with other names. A predicate is none, and neither is the answer to a goal. The
    toolchain gives the names of a file Proof."""
    paths = sorted(top.glob("crates/*/proofs/**/*.antt"))
    for path in (it for it in paths if it.stem != "Proof"):
        for number, line in outside_of_records(path.read_text().split("\n")):
            lemma = re.match(r" *pub (\w+) :(?! goal\.)(?!.*→ Type 0$)", line)
            if lemma and lemma[1] not in DATA:
                yield path, number, f"the name of {lemma[1]} has no head"
