"""Runs random logs, and compares the report, the execution order and the levels with the model.

    tools/fuzz run                          1,000 maps of up to 14 instances, in 1 to 3 logs
    tools/fuzz run --cases 20000 --seed 3
    tools/fuzz run --cases 300 --instances 200      larger maps

Each map is executed by the model, command after command. The answers of `run`, `order` and
`levels`, the replies of `replay` and the values of a key in `trace` must be those of the model, to
the byte.
"""

import json

from command_line import count
from fuzzing.cases import Kind
from fuzzing.maps import SMALL, Map, scattered
from fuzzing.model import command_on, conflict, header, last_rows, report, text_of, touched_keys
from fuzzing.model import written_keys


def add_options(words):
    words.add_argument("--instances", type=count, default=SMALL, help="of a map, at most")


def order(m):
    """The answer of `order`: each ready instance with its depth and its leader."""
    rows = [["order", *x, m.depth(x), *m.leader(x)] for x in m.execution_order()]
    return [header(m), *rows, *last_rows(m, {})]


def levels(m):
    """The answer of `levels`. The level of a command is the number of commands in the longest chain
    before it in which each conflicts with the next, and the last with it."""
    found = {}
    for x in m.execution_order():
        befores = [y for y in found if conflict(*m.commands_in([x, y]))]
        found[x] = max((1 + found[y] for y in befores), default=0)
    rows = [["level", *x, level] for x, level in found.items()]
    return [header(m), *rows, *last_rows(m, {})]


def trace(m, key):
    """The answer of `trace --reads`: what each executed command does with a key. A command that
    aborts writes nothing."""
    store, rows = {}, []
    for x in m.execution_order():
        ops, before = m.instances[x].ops, store.get(key)
        reply, store = command_on(ops, store)
        if key in written_keys(ops) and reply[0] == "ok":
            rows.append(["write", *x, before, store.get(key)])
        elif key in touched_keys(ops):
            rows.append(["read", *x, before])
    return rows


def try_map(case):
    given = Map(case.rng, case.given.instances)
    m, entries = given.map, [it | {"deps": sorted(it["deps"])} for it in given.entries.values()]
    paths = case.write(scattered(case.rng, entries))
    for question, wanted in (("run", report(m)), ("order", order(m)), ("levels", levels(m))):
        case.expect(question, case.text(question, *case.plan(), *paths), text_of(wanted))
    key = case.rng.choice(["key 0", "key 1", "another key"])
    told = case.text("trace", key, "--reads", *case.plan(), *paths)
    case.expect("trace", told, text_of(trace(m, key)))
    listing = case.folder / "list"
    listing.write_text("".join(json.dumps(x) + "\n" for x in given.order))
    told = case.text("replay", listing, *case.plan(), *paths)
    rows = [row for row in report(m) if row[0] in ("reply", "store")]
    case.expect("replay", told, text_of(rows))
    case.found["executed"] += len(given.order)
    case.found["waiting"] += len(given.entries) - len(given.order)


KINDS = {"cases": Kind("maps", 1_000, 800, try_map)}
