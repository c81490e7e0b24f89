"""Random instances of replicas whose commands touch few keys, and batches of them. A module, and no
tool itself."""

import json

from fuzzing.lines import committed, name_of, text_of
from fuzzing.model import CommittedMap, execute, last_rows, remaining, reply_rows

REPLICAS = 5


def operation(rng, key):
    """One operation on a key, and whether it writes."""
    kind = rng.randrange(6)
    if kind == 0:
        return ["get", key], False
    if kind == 1:
        return ["put", key, rng.randrange(-50, 50)], True
    if kind == 2:
        return ["del", key], True
    if kind == 3:
        return ["is", key, rng.choice([None, rng.randrange(-2, 3)])], False
    if kind == 4:
        return ["floor", key, rng.randrange(-60, 20)], False
    return ["add", key, rng.randrange(-9, 10)], True


def covered_instances(rng, count):
    """Entries by the time of their proposal, each with what it depends on; some pairs depend on
    each other."""
    keys = [f"key {n}" for n in range(max(4, count // 20))]
    numbers = [0] * REPLICAS
    writer, readers = {}, {}
    entries = []
    for _ in range(count):
        replica = rng.randrange(REPLICAS)
        name = (replica, numbers[replica])
        numbers[replica] += 1
        deps, ops = set(), []
        for key in rng.sample(keys, rng.choice([1, 1, 2])):
            op, writes = operation(rng, key)
            ops.append(op)
            if key in writer:
                deps.add(writer[key])
            if writes:
                deps.update(readers.pop(key, ()))
                writer[key] = name
            else:
                readers.setdefault(key, set()).add(name)
        deps.discard(name)
        entries.append({"r": name[0], "i": name[1], "seq": 0, "deps": deps, "ops": ops})
    by_name = {name_of(entry): entry for entry in entries}
    for entry in entries:
        entry["seq"] = 1 + max((by_name[d]["seq"] for d in entry["deps"]), default=0)
    for entry in rng.sample(entries, count // 10):
        for dep in sorted(entry["deps"])[:1]:
            by_name[dep]["deps"].add(name_of(entry))
    return entries


def some_lost(rng, most):
    """Entries of a covered log of fewer than so many instances, of which some are lost."""
    entries = covered_instances(rng, rng.randrange(1, most))
    lost = rng.sample(entries, min(len(entries), rng.randrange(3)))
    return [entry for entry in entries if entry not in lost]


def batches_of(rng, entries):
    """The entries in random order, in batches of which some are empty and some repeat others."""
    shuffled = rng.sample(entries, len(entries))
    batches = []
    while shuffled:
        size = min(len(shuffled), rng.choice([0, 1, 1, 2, 3, 5, 8]))
        batch, shuffled = shuffled[:size], shuffled[size:]
        if rng.randrange(4) == 0:
            batch = batch + rng.sample(entries, 1)
        batches.append(batch)
    return batches


def followed(batches):
    """The answer of `follow` to batches of entries, by the model: each executes what is ready of
    the instances that wait and those that came. The rows at the end say what still waits, and the
    store."""
    waits, done, store, rows = CommittedMap([]), set(), {}, []
    for batch in batches:
        came = committed(batch).instances
        new = {x: one for x, one in came.items() if x not in done and x not in waits.instances}
        left = remaining(CommittedMap([*waits.instances.values(), *new.values()]), done)
        order = left.execution_order()
        replies, store = execute(left.commands_in(order), store)
        done.update(order)
        waits = remaining(left, done)
        rows.append(["came", len(new), "executed", len(order), "waiting", len(waits.instances)])
        rows += reply_rows(order, replies)
    return rows + last_rows(waits, store)


def counts(batches):
    """How many instances of each batch are new, are executed, and wait after it."""
    return [row[1::2] for row in followed(batches) if row[0] == "came"]


class Report:
    """The rows of a report or of what `follow` says, by their kinds."""

    def __init__(self, text):
        self.rows = [json.loads(line) for line in text.splitlines()]
        self.done = [tuple(row[1:]) for row in self.of("done")]
        self.replies = {tuple(row[1:3]): row[3:] for row in self.of("reply")}
        self.waiting, self.store = self.of("waiting"), self.of("store")
        # what batches say, and what is left at the end
        self.batches = [row for row in self.rows if row[0] in ("came", "reply")]
        self.end = self.waiting + self.store

    def of(self, kind):
        return [row for row in self.rows if row[0] == kind]


def lines_of(batches):
    """A log of batches, of which a blank line ends each."""
    return "".join(text_of(batch) + "\n" for batch in batches)
