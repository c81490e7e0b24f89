"""Random small maps of instances, and random lists of them. A module, and no tool itself."""

import json

from fuzzing.lines import committed, text_of
from fuzzing.model import conflict

# The most instances of a map, where no option says another number.
SMALL = 14
OPERATIONS = ["get", "put", "del", "add", "is", "floor", "copy"]


class Map:
    """Random instances of three replicas, some of which depend on instances that are not
    committed: their entries, and the committed map `map`."""

    def __init__(self, rng, most):
        self.entries = {}
        keys = [f"key {n}" for n in range(rng.randrange(1, max(6, most // 2)))]
        numbers, dense = [0, 0, 0], rng.random()
        # In a larger map a few gaps are enough, and as many other dependencies as in a small one.
        if most > SMALL:
            dense = 1 - dense * rng.choice([0, 0.003, 0.1, 1])
        self.scale = min(1, SMALL / most)
        for _ in range(rng.randrange(most + 1)):
            replica = rng.randrange(3)
            self.add(rng, (replica, numbers[replica]), keys, dense)
            numbers[replica] += 1
        self.map = committed(self.entries.values())
        self.order = self.map.execution_order()

    def add(self, rng, x, keys, dense):
        ops = [operation(rng, keys) for _ in range(rng.randrange(3))]
        deps = {y for y, entry in self.entries.items()
                if conflict(ops, entry["ops"]) and rng.random() < dense}  # fmt: skip
        deps |= {y for y in self.entries if rng.random() < 0.03 * self.scale}
        deps |= {(7, rng.randrange(3))} if rng.random() < 0.03 * self.scale else set()
        for entry in self.entries.values():
            if rng.random() < 0.05 * self.scale**2:
                entry["deps"].add(x)
        seq = rng.randrange(1, 5)
        self.entries[x] = {"r": x[0], "i": x[1], "seq": seq, "deps": deps, "ops": ops}

    def text(self):
        return text_of(self.entries.values())


def operation(rng, keys):
    kind, key, other = rng.choice(OPERATIONS), rng.choice(keys), rng.choice(keys)
    if kind == "copy":
        return [kind, key, other]
    return [kind, key] if kind in ("get", "del") else [kind, key, 1]


def changed(rng, order, names):
    """A list that is the order, or nearly."""
    listed = list(order)
    if rng.random() < 0.3:
        del listed[rng.randrange(len(listed) + 1) :]
    for _ in range(rng.choice([0, 0, 1, 1, 2])):
        change = rng.randrange(5)
        if change == 0 and listed:
            listed.pop(rng.randrange(len(listed)))
        elif change == 1:
            listed.insert(rng.randrange(len(listed) + 1), rng.choice([*names, (9, 9)]))
        elif len(listed) > 1:
            place = rng.randrange(len(listed) - 1)
            listed[place], listed[place + 1] = listed[place + 1], listed[place]
    return listed


def scattered(rng, entries):
    """Texts of one log to three: the line of each entry in one at least, and some lines twice."""
    logs = [[] for _ in range(rng.choice([1, 1, 2, 3]))]
    for entry in entries:
        for log in rng.sample(logs, rng.randrange(1, len(logs) + 1)):
            for _ in range(rng.choice([1, 1, 1, 2])):
                log.insert(rng.randrange(len(log) + 1), json.dumps(entry) + "\n")
    return ["".join(log) for log in logs]
