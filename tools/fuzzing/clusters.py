"""Simulated clusters of EPaxos: what their replicas commit, and the order in which one executes. A
module, and no tool itself."""

import collections

from fuzzing.lines import name_of
from fuzzing.model import conflict, touched_keys, written_keys


class Replica:
    """What a replica of a simulated cluster knows: for each key, the greatest number of each
    replica that touches it and that writes it, and the greatest sequence numbers of both."""

    def __init__(self):
        self.touched, self.written = collections.defaultdict(dict), collections.defaultdict(dict)

    def meet(self, command):
        """Adds what it knows to the numbers of a command, and then notes the command."""
        touched, written = touched_keys(command["ops"]), written_keys(command["ops"])
        for key in touched:
            known = self.touched if key in written else self.written
            for replica, (number, seq) in known[key].items():
                held = command["deps"][replica]
                command["deps"][replica] = number if held is None else max(held, number)
                command["seq"] = max(command["seq"], seq + 1)
        for known, keys in ((self.touched, touched), (self.written, written)):
            for key in keys:
                number, seq = known[key].get(command["r"], (-1, 0))
                known[key][command["r"]] = max(number, command["i"]), max(seq, command["seq"])


def operation(rng, key, value):
    return rng.choice((["get", key], ["put", key, value], ["add", key, value]))


def simulate(rng, replicas, instances, most_keys=2, first=0):
    """The commands of a simulated cluster, and when each of them meets which replica, as rising
    rows of a time, a position among the commands and a replica. The command of position N is
    proposed at time N, and then meets others in any order, until a majority has met it. A command
    is the JSON object of a line, with one number a replica in place of the dependencies."""
    events, commands, numbers = [], [], [first] * replicas
    for at in range(instances):
        proposer = rng.randrange(replicas)
        keys = rng.sample(range(instances // 10), rng.randint(1, most_keys))
        ops = [operation(rng, f"k{key}", at) for key in keys] + [["get", f"k{keys[0]}"]]
        place = {"r": proposer, "i": numbers[proposer]}
        numbers[proposer] += 1
        commands.append(place | {"seq": 1, "deps": [None] * replicas, "ops": ops})
        others = [replica for replica in range(replicas) if replica != proposer]
        events.append((at, at, proposer))
        for other in rng.sample(others, replicas // 2):
            events.append((at + rng.expovariate(0.1), at, other))
    events.sort()
    states = [Replica() for _ in range(replicas)]
    for _, at, replica in events:
        states[replica].meet(commands[at])
    for command in commands:
        command["deps"] = [rng.choice((None, -1)) if it is None else it for it in command["deps"]]
    return commands, events


def cluster(rng, replicas, instances, most_keys=2, first=0):
    """The logs of a simulated cluster. Each replica keeps the lines of what it meets."""
    commands, events = simulate(rng, replicas, instances, most_keys, first)
    logs = [[] for _ in range(replicas)]
    for _, at, replica in events:
        logs[replica].append(commands[at])
    return logs


def named_by(commands, line, is_all):
    """All instances that the numbers of a line mean: all up to them, or those of them that
    conflict."""
    named = set()
    for other in commands:
        most = line["deps"][other["r"]]
        is_named = most is not None and other["i"] <= most
        if not is_all:
            is_before = other["r"] == line["r"] and other["i"] < line["i"]
            is_named = (is_named or is_before) and conflict(line["ops"], other["ops"])
        if is_named and other is not line:
            named.add(name_of(other))
    return named


def with_pairs(commands, is_all=False):
    """The entries of commands by Id, with pairs in place of numbers."""
    return {name_of(it): it | {"deps": named_by(commands, it, is_all)} for it in commands}


def order_of_replica(rng, m):
    """The order in which a replica executes instances that are all ready: it begins with any of
    them, and executes what this one reaches first, component by component."""
    # what an instance reaches outside its component reaches less
    keys = {x: (len(m.reached(x)), m.rank(x)) for x in m.instances}
    order = {}
    for x in rng.sample(sorted(m.instances), len(m.instances)):
        below = sorted(m.reached(x) - order.keys(), key=keys.get)
        order.update(dict.fromkeys(below))
    return list(order)
