"""EPaxos' execution of committed instances, as plainly as Python can say it. A module, and no tool.

It says what docs/MODEL.md defines, in the order of what `run` rests on, for those who read no
proofs. docs/FORMAT.md has the same in words. All searches are plain ones, since this is here to be
read. `tools/fuzz` compares the program with it.

An Id is a pair of a replica and a number. Python orders pairs by the first, and then the second. A
store is a dictionary from keys to numbers. A row is a line of an answer, as a list.
"""

import collections
import functools
import json
import sys

# An instance: its Id, its sequence number, the set of the Ids that it depends on, and the list of
# the operations of its command. An operation is a list as a line has it, like ["put", "a", 5].
Instance = collections.namedtuple("Instance", "id seq deps ops")

# A chain of instances may be long, and `depth` follows it call by call.
sys.setrecursionlimit(20_000)


class CommittedMap:
    """The instances that lines commit, each once."""

    def __init__(self, instances):
        self.instances = {one.id: one for one in instances}
        # both are asked for again and again
        self.reached, self.depth = functools.cache(self.reached), functools.cache(self.depth)

    def is_committed(self, x):
        """An Id that no line commits is missing."""
        return x in self.instances

    def commands_in(self, ids):
        """The commands of a list of Ids. A missing instance has no operations."""
        return [self.instances[x].ops if self.is_committed(x) else [] for x in ids]

    def dependencies(self, x):
        """What an instance depends on. Nothing is known of a missing one."""
        return self.instances[x].deps if self.is_committed(x) else set()

    def reached(self, x):
        """An instance reaches itself, and what a path of dependencies leads to."""
        found, last = {x}, {x}
        while last:
            last = set().union(*map(self.dependencies, last)) - found
            found |= last
        return found

    def reaches(self, x, y):
        """The first reaches the second."""
        return y in self.reached(x)

    def missing_below(self, x):
        """What an instance reaches and no line commits."""
        return {y for y in self.reached(x) if not self.is_committed(y)}

    def is_ready(self, x):
        """Ready: it and all that it reaches are committed."""
        return not self.missing_below(x)

    def ready(self):
        """The committed instances that are ready, by rising Id."""
        return [x for x in sorted(self.instances) if self.is_ready(x)]

    def waiting(self):
        """Each other one, with what it waits for: the least missing one that it reaches."""
        waits = sorted(self.instances.keys() - self.ready())
        return [(x, min(self.missing_below(x))) for x in waits]

    def component(self, x):
        """The members of a component reach each other."""
        return {y for y in self.reached(x) if self.reaches(y, x)}

    def leader(self, x):
        """The leader of a component is its least member."""
        return min(self.component(x))

    def depth(self, x):
        """The greatest number of steps in a chain that begins at the instance, in which each
        member reaches the next and is not reached by it."""
        below = [y for y in self.reached(x) if not self.reaches(y, x)]
        return max((1 + self.depth(y) for y in below), default=0)

    def by_sequence(self, x):
        """Members of a component are executed by sequence number, replica and number."""
        return self.instances[x].seq, x

    def rank(self, x):
        """By depth, leader, sequence number, replica and number."""
        return self.depth(x), self.leader(x), *self.by_sequence(x)

    def execution_order(self):
        """The ready instances, each once, by rank."""
        return sorted(self.ready(), key=self.rank)

    def check(self, listed, is_prefix=False):
        """What `check` says of a list of Ids, or `check --prefix`. A lawful order has each ready
        instance once, and nothing else. What an instance reaches outside its component comes before
        it, and the members of a component come by sequence number. A prefix may lack the rest."""
        ready = self.ready()
        for at, x in enumerate(listed):
            if x not in ready:
                return ["stranger", at]
            if x in listed[:at]:
                return ["repeat", at]
        for x in ready:
            if x not in listed and not is_prefix:
                return ["missing", *x]
        for at, x in enumerate(listed):
            if any(y not in listed[:at] for y in self.reached(x) - self.component(x)):
                return ["early", at]
            for y in self.component(x) - {x}:
                is_first = self.by_sequence(y) < self.by_sequence(x)
                if not is_first and y in listed[:at] or is_first and y not in listed:
                    return ["sequence", at]
        return ["lawful"]

    def related(self, x, y):
        """One of them reaches the other."""
        return self.reaches(x, y) or self.reaches(y, x)

    def uncovered_pairs(self):
        """The pairs of ready instances that conflict and of which neither reaches the other. Where
        there is none the logs are covered."""
        ready = self.ready()
        return [(x, y) for x in ready for y in ready
                if x < y and conflict(*self.commands_in([x, y])) and not self.related(x, y)]


def touched_keys(ops):
    """The keys of a command: those of the text of its operations, even where it aborts."""
    return {key for op in ops for key in (op[1:] if op[0] == "copy" else op[1:2])}


def written_keys(ops):
    """The keys that the text of a command writes."""
    return {op[2] if op[0] == "copy" else op[1]
            for op in ops if op[0] in ("put", "del", "add", "copy")}  # fmt: skip


def conflict(one, other):
    """Two commands conflict where one writes a key that the other touches."""
    found = written_keys(one) & touched_keys(other) | touched_keys(one) & written_keys(other)
    return bool(found)


def assign(store, key, value):
    """The store in which a key holds a value, or is absent where the value is None."""
    return {name: held for name, held in {**store, key: value}.items() if held is not None}


def operate(op, store):
    """The store after an operation and the values that it adds to the reply, or None where it
    aborts. Where a number is needed, an absent key counts as 0."""
    match op:
        case "get", key:
            return store, [store.get(key)]
        case "put", key, value:
            return assign(store, key, value), []
        case "del", key:
            return assign(store, key, None), []
        case "add", key, amount:
            total = store.get(key, 0) + amount
            return (assign(store, key, total), []) if -(2**63) <= total < 2**63 else None
        case "is", key, value:
            return (store, []) if store.get(key) == value else None
        case "floor", key, least:
            return (store, []) if store.get(key, 0) >= least else None
        case "copy", key, other:
            return assign(store, other, store.get(key)), []


def command_on(ops, store):
    """The reply of a command, as the end of its line, and the store after it. Its operations are
    done in turn, and an abort undoes all of them and says which one aborted."""
    after, values = store, []
    for at, op in enumerate(ops):
        done = operate(op, after)
        if done is None:
            return ["abort", at], store
        after, values = done[0], values + done[1]
    return ["ok", values], after


def execute(commands, store):
    """The replies of commands that are executed one after another, and the store at the end."""
    replies = []
    for ops in commands:
        reply, store = command_on(ops, store)
        replies.append(reply)
    return replies, store


def header(m):
    """How many instances are ready, how many wait, and how many components the ready ones make."""
    leaders = {m.leader(x) for x in m.ready()}
    return ["executed", len(m.ready()), "waiting", len(m.waiting()), "components", len(leaders)]


def reply_rows(order, replies):
    """The replies of executed instances, in their order."""
    return [["reply", *x, *reply] for x, reply in zip(order, replies)]


def last_rows(m, store):
    """What waits, and then the keys in the order of their bytes, with their values."""
    rows = [["waiting", *x, *y] for x, y in m.waiting()]
    return rows + [["store", key, store[key]] for key in sorted(store, key=str.encode)]


def report(m):
    """The report of `run`: the ready instances are executed in order, from the empty store."""
    order = m.execution_order()
    replies, store = execute(m.commands_in(order), {})
    return [header(m), *reply_rows(order, replies), *last_rows(m, store)]


def remaining(m, done):
    """What is left once some instances are done: the others, without dependencies on those."""
    left = [one for x, one in m.instances.items() if x not in done]
    return CommittedMap(one._replace(deps=one.deps - done) for one in left)


def resumed_report(m, done, store):
    """The report of `resume`, from a base that says what is done and what the store holds."""
    left = remaining(m, done)
    order = left.execution_order()
    replies, store = execute(left.commands_in(order), store)
    rows = [["done", *x] for x in sorted(done)] + reply_rows(order, replies)
    return [header(left), *rows, *last_rows(left, store)]


def text_of(rows):
    """Rows as lines of compact JSON."""
    lines = [json.dumps(row, separators=(",", ":"), ensure_ascii=False) for row in rows]
    return "".join(line + "\n" for line in lines)
