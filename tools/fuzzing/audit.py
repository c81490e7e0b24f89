"""Audits random small logs, for the least pair and for all, and checks random lists.

    tools/fuzz audit                        1,000 maps of up to 14 instances, one list of each
    tools/fuzz audit --cases 10000 --seed 3
    tools/fuzz audit --cases 300 --instances 200    larger maps, many of them covered or nearly

The model looks at all pairs: which instances conflict and are not related, which are next to each
other on a key, and what is wrong with a list, as an order and as a beginning. The lists are
execution orders, or beginnings of them, in which some instances are dropped, added or exchanged.
"""

import json

from command_line import count
from fuzzing.cases import Kind
from fuzzing.maps import SMALL, Map, changed
from fuzzing.model import touched_keys, written_keys


def add_options(words):
    words.add_argument("--instances", type=count, default=SMALL, help="of a map, at most")


def audit(m):
    """The least two ready instances that conflict and are not related."""
    pairs = m.uncovered_pairs()
    return [["uncovered", *pairs[0][0], *pairs[0][1]]] if pairs else [["covered"]]


def audit_all(m):
    """The ready instances next to each other on a key, of which neither reaches the other."""
    order, found = m.execution_order(), []
    touched, written = ({x: keys(m.instances[x].ops) for x in order}
                        for keys in (touched_keys, written_keys))  # fmt: skip
    for at, x in enumerate(order):
        for key in touched[x]:
            for y in order[at + 1 :]:
                writes = key in written[x] | written[y]
                if key in touched[y] and writes and not m.related(x, y):
                    found.append(["uncovered", *x, *y, key])
                # what follows a write is not next to what is before it
                if key in written[y]:
                    break
    return sorted(found) or [["covered"]]


def try_map(case):
    given = Map(case.rng, case.given.instances)
    log, listing = case.folder / "log", case.folder / "list"
    log.write_text(given.text())
    listed = changed(case.rng, given.order, given.entries)
    listing.write_text("".join(case.rng.choice(["", "\n"]) + json.dumps(x) + "\n" for x in listed))
    words = case.plan() + case.rng.choice([["--exit-code"], []])
    answers = (
        ("audit", audit(given.map), [log]),
        ("audit --all", audit_all(given.map), [log]),
        ("check", [given.map.check(listed)], [listing, log]),
        ("check --prefix", [given.map.check(listed, is_prefix=True)], [listing, log]),
    )
    for question, wanted, paths in answers:
        case.found.update(row[0] for row in wanted)
        case.expect(question, case.answer(*question.split(), *words, *paths), wanted)


KINDS = {"cases": Kind("maps, with a list each", 1_000, 800, try_map)}
