"""Replays random lists, and verifies what replicas said.

    tools/fuzz verify                       1,000 maps of up to 14 instances, and 20 clusters
    tools/fuzz verify --cases 20000 --clusters 200 --seed 3

The model executes one operation after another. Of each random map a list is an execution order, or
a beginning of one, in which some instances are dropped, added or exchanged. What `replay` prints is
what a replica with this list would say: `verify` must find it right, but for the order, and where
one reply, one value or one key is changed it must print this one line besides, if the order is
lawful. So must it of simulated clusters, each of whose replicas stops at a random moment of an
order of its own.
"""

import json

from command_line import count
from fuzzing.cases import Kind
from fuzzing.clusters import order_of_replica, simulate, with_pairs
from fuzzing.histories import REPLIES
from fuzzing.lines import committed, text_of
from fuzzing.maps import SMALL, Map, changed
from fuzzing.model import execute

VALUES = [None, 0, 1, -5]


def add_options(words):
    words.add_argument("--instances", type=count, default=SMALL, help="of a map, at most")


def said_rows(listed, replies, store):
    """What a replica says that has executed this list."""
    rows = [["reply", *name, *reply] for name, reply in zip(listed, replies)]
    return rows + [["store", key, store[key]] for key in sorted(store, key=str.encode)]


def with_one_change(rng, listed, replies, store):
    """What a replica says that is wrong in one reply, one value or one key, and the row that says
    so."""
    at = rng.randrange(len(listed) + len(store) + 1)
    if at < len(listed):
        said = rng.choice([it for it in REPLIES if it != replies[at]])
        rows = said_rows(listed, [*replies[:at], said, *replies[at + 1 :]], store)
        return rows, ["reply", *listed[at], said, replies[at]]
    key = [*store, "another key"][at - len(listed)]
    said = rng.choice([it for it in VALUES if it != store.get(key)])
    held = {name: value for name, value in {**store, key: said}.items() if value is not None}
    return said_rows(listed, replies, held), ["store", key, said, store.get(key)]


def ask(case, question, rows):
    """Asks about a list, or about what a replica said."""
    path = case.folder / f"input-{len(case.calls)}"
    path.write_text("".join(json.dumps(row, ensure_ascii=False) + "\n" for row in rows))
    more = ["--exit-code"] if question == "verify" and case.rng.random() < 0.5 else []
    return case.answer(question, *more, *case.plan(), path, case.folder / "log")


def try_list(case, m, listed, verdict):
    """Compares all answers about a list, of which the order has this verdict."""
    replies, store = execute(m.commands_in(listed), {})
    right = said_rows(listed, replies, store)
    case.expect("the replay", ask(case, "replay", listed), right)
    case.expect("the verdict on a right text", ask(case, "verify", right), [verdict])
    rows, wrong = with_one_change(case.rng, listed, replies, store)
    wanted = [verdict, wrong] if verdict == ["lawful"] else [verdict]
    case.expect("the verdict on a wrong text", ask(case, "verify", rows), wanted)
    case.found[f"{verdict[0]} lists"] += 1


def try_map(case):
    given = Map(case.rng, case.given.instances)
    (case.folder / "log").write_text(given.text())
    listed = changed(case.rng, given.order, given.entries)
    try_list(case, given.map, listed, given.map.check(listed, is_prefix=True))


def try_cluster(case):
    """A replica of the cluster stops at a moment of an order of its own."""
    entries = with_pairs(simulate(case.rng, 3, 60)[0])
    (case.folder / "log").write_text(text_of(entries.values()))
    m = committed(entries.values())
    order = order_of_replica(case.rng, m)
    listed = order[: case.rng.randrange(len(order) + 1)]
    try_list(case, m, listed, ["lawful"])


KINDS = {
    "cases": Kind("maps, with a list each", 1_000, 800, try_map),
    "clusters": Kind("clusters", 20, 20, try_cluster),
}
