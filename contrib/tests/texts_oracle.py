"""What commands over JSON values do, by the plain model, and what follows of it for the answers of
epx. A module of the test of contrib/texts, and no tool itself."""

import decimal
import json

from fuzzing.model import CommittedMap, Instance, command_on, conflict, touched_keys, written_keys


def plain(value):
    """A value that equals others as JSON values do: True is no 1."""
    if isinstance(value, bool) or value is None or isinstance(value, str):
        return type(value).__name__, value
    if isinstance(value, list):
        return "list", tuple(map(plain, value))
    if isinstance(value, dict):
        return "dict", frozenset((name, plain(it)) for name, it in value.items())
    return "number", value


def parsed(text):
    return json.loads(text, parse_int=decimal.Decimal, parse_float=decimal.Decimal)


def rows_of(text):
    """The lines of an answer, of values that can be compared."""
    return [plain(parsed(line)) for line in text.decode().splitlines()]


def operations(texts):
    """Operations as the model does them, over values that can be compared."""
    hold = lambda value: None if value is None else plain(value)
    return [[name, key, *(more if name == "copy" else map(hold, more))]
            for name, key, *more in map(parsed, texts)]  # fmt: skip


def row(words, values=()):
    """A row of words and numbers, and then of values that a store gives."""
    return "list", (*map(plain, words), *(value or plain(None) for value in values))


def reply_row(at, reply):
    """The row of a reply that the model gives."""
    kind, end = reply
    if kind == "abort":
        return row(["reply", *at, kind, end])
    start, (_, values) = row(["reply", *at, kind]), row([], end)
    return "list", (*start[1], ("list", values))


class Store:
    """Executes commands over a store of JSON values, one after another."""

    def __init__(self, commands):
        self.store = {}
        self.ops = {at: operations(ops) for at, (_, _, ops) in commands.items()}

    def execute(self, at):
        """The reply of a command, and the store before it."""
        before = self.store
        reply, self.store = command_on(self.ops[at], before)
        return reply, before


def places_in(text, kind):
    lines = [json.loads(line) for line in text.splitlines()]
    return [tuple(line[1:3]) for line in lines if line[0] == kind]


def wanted_report(text, kind, store, traces):
    """The lines of a report, and of traces, by what epx says of the logs without operations."""
    lines, touched = [plain(parsed(line)) for line in text.decode().splitlines()], []
    others = [it for it in lines if it[1][0][1] not in (kind, "store")]
    for at in places_in(text, kind):
        reply, before = store.execute(at)
        touched.append(reply_row(at, reply))
        for key in touched_keys(store.ops[at]):
            is_write = reply[0] == "ok" and key in written_keys(store.ops[at])
            values = [before.get(key)] + [store.store.get(key)] * is_write
            traces[key].append(row(["write" if is_write else "read", *at], values))
    at = 1 + sum(it[1][0][1] == "done" for it in others)
    rows = sorted(store.store.items(), key=lambda held: held[0].encode())
    return [*others[:at], *touched, *others[at:], *(row(["store", key], [it]) for key, it in rows)]


def wanted_levels(order, commands):
    """The level of each command, by a plain search of pairs that conflict."""
    ops, found = {at: operations(commands[at][2]) for at in order}, {}
    for at in order:
        befores = [level + 1 for it, level in found.items() if conflict(ops[at], ops[it])]
        found[at] = max(befores, default=0)
    return [row(["level", *at, level]) for at, level in found.items()]


def wanted_audit(commands):
    """The least two ready commands that conflict and are not related."""
    pairs = CommittedMap(
        Instance(at, seq, set(deps), operations(ops)) for at, (seq, deps, ops) in commands.items()
    ).uncovered_pairs()
    found = ["uncovered", *pairs[0][0], *pairs[0][1]] if pairs else ["covered"]
    return json.dumps(found, separators=(",", ":")) + "\n"
