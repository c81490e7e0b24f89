"""Histories of clients, and what plain searches find of them. A module, and no tool itself.

The definition of each line of an answer looks at all pairs. The other search tries all orders."""

import dataclasses
import itertools
import json

from fuzzing.model import conflict, execute

# The greatest time and the greatest value.
MOST = 2**63 - 1
# Replies, each as the end of its line.
REPLIES = [["ok", []], ["ok", [None]], ["ok", [7]], ["abort", 0], ["abort", 63]]


@dataclasses.dataclass
class Call:
    """When a command was invoked and, if its client had an answer, when this came. The reply is the
    end of its line, or None."""

    invoked: int
    returned: int = None
    reply: list = None


def call_row(name, call):
    return ["call", *name, call.invoked, call.returned, *(call.reply or ())]


class Executed:
    """The ready instances of a map in the order of their execution, with their replies.

    Of each position it has those of the commands before it that conflict with it (`conflicts`), and
    those from which a chain of conflicts leads to it, its own among them (`chains`)."""

    def __init__(self, m):
        self.map, self.listed = m, m.execution_order()
        self.replies = self.replies_in(range(len(self.listed)))
        self.conflicts, self.chains = [], []
        for at, own in enumerate(m.commands_in(self.listed)):
            others = m.commands_in(self.listed[:at])
            before = {it for it, other in enumerate(others) if conflict(own, other)}
            self.conflicts.append(before)
            self.chains.append({at}.union(*(self.chains[it] for it in before)))

    def replies_in(self, order):
        """The replies of an order of positions."""
        return execute(self.map.commands_in([self.listed[at] for at in order]), {})[0]

    def findings(self, calls, skew=0):
        """The lines about calls, by instance, each by its definition."""
        found = []
        for at, name in enumerate(self.listed):
            call = calls.get(name)
            if call and call.reply not in (None, self.replies[at]):
                found.append(["reply", *name])
            if call and call.returned is not None:
                led = [self.listed[it] for it in self.chains[at] if self.listed[it] in calls]
                last = min(led, key=lambda it: (-calls[it].invoked, it))
                if call.returned + skew < calls[last].invoked:
                    found.append(["late", *name, *last])
        return found + [["lost", *name] for name in sorted(calls.keys() - {*self.listed})
                        if calls[name].returned is not None]  # fmt: skip

    def serial_order(self, calls, skew=0):
        """An order that keeps real time and that of each pair that conflicts, as positions, or
        None. All orders are tried."""
        after = [set(before) for before in self.conflicts]
        for one, other in itertools.product(range(len(self.listed)), repeat=2):
            first, second = calls.get(self.listed[one]), calls.get(self.listed[other])
            if first and second and first.returned is not None:
                if first.returned + skew < second.invoked:
                    after[other].add(one)
        for order in itertools.permutations(range(len(self.listed))):
            if all(after[at] <= {*order[:place]} for place, at in enumerate(order)):
                return order
        return None


def random_calls(rng, executed, others):
    """Random calls of instances, nearly in the order of the execution, or against it. Times are
    small or large ones, and often equal. Some replies may be wrong ones."""
    span, step, begin = rng.choice([2, 4, 20]), rng.randrange(-2, 4), rng.choice([0, MOST - 1000])
    wrong = rng.choice([0, 0, 0.2])
    replies, calls = dict(zip(executed.listed, executed.replies)), {}
    names = [*executed.listed, *others]
    for at, name in enumerate(names):
        if rng.random() < 0.85:
            place = at if step > 0 else at - len(names)
            invoked = begin + step * place + rng.randrange(span)
            call = calls[name] = Call(invoked)
            # an answer of what is not executed is a finding
            if rng.random() < (0.9 if name in replies else 0.2):
                call.returned = invoked + rng.choice([0, 1, rng.randrange(span)])
                right = replies.get(name, REPLIES[0])
                call.reply = rng.choice(REPLIES) if rng.random() < wrong else right
                call.reply = rng.choice([call.reply, None])
    return calls


def history_of(rng, calls):
    """The text of calls, in any order and spelling, with blank lines."""
    text = ""
    for name in rng.sample(sorted(calls), len(calls)):
        spaces = rng.choice([(",", ":"), (", ", ": "), (" ,\t", ":")])
        text += rng.choice(["", "", "\n", " \t\r\n"])
        text += json.dumps(call_row(name, calls[name]), separators=spaces) + "\n"
    return text if rng.random() < 0.8 else text.rstrip("\n")
