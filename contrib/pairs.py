"""The pairs that say what one number a replica means. A module, and no tool itself.

A rule is made of all instances that are committed. Then it gives the pairs of each.
"""

import array
import bisect
import collections

from logs import accesses

MOST_REPLICAS = 256


def bounds_of(line):
    """The numbers of a line, by replica. None is -1, and those at the end are left out."""
    bounds = [-1 if number is None else number for number in line["deps"]]
    while bounds and bounds[-1] < 0:
        bounds.pop()
    return bounds


def first_gap(numbers, first):
    """The least number from the first on that is not among them."""
    return next(it for it in range(first, first + len(numbers) + 1) if it not in numbers)


class Rule:
    """What the logs commit, as lines by replica and number, and what a base has done.

    Then `pairs` gives those of a line, rising. They are made once, so that they cost little."""

    def __init__(self, commits, done, first):
        known = {replica: set(lines) for replica, lines in commits.items()}
        for replica, number in done:
            known.setdefault(replica, set()).add(number)
        self.gaps = [first] * MOST_REPLICAS
        for replica, numbers in known.items():
            self.gaps[replica] = first_gap(numbers, first)

    def gaps_up_to(self, bounds):
        """The first instance of each replica that is not committed, where a number names it."""
        return [(replica, self.gaps[replica]) for replica, most in enumerate(bounds)
                if most >= self.gaps[replica]]  # fmt: skip


class Conflicting(Rule):
    """Numbers mean the conflicting instances up to them.

    For each key and each replica it knows the numbers of the instances that use the key, rising,
    and for each of them the position of the last one up to it that writes the key, or -1."""

    def __init__(self, commits, done, first):
        super().__init__(commits, done, first)
        self.users = collections.defaultdict(dict)
        for replica, lines in commits.items():
            for number in sorted(lines):
                for key, writes in accesses(lines[number]["ops"]).items():
                    users = self.users[key]
                    if replica not in users:
                        # Arrays, since they are together in memory, and this is much of the time.
                        users[replica] = array.array("Q"), array.array("q")
                    numbers, writers = users[replica]
                    last = writers[-1] if writers else -1
                    writers.append(len(numbers) if writes else last)
                    numbers.append(number)

    def pairs(self, line):
        bounds, own, before = bounds_of(line), line["r"], line["i"] - 1
        found = collections.defaultdict(list)
        for replica, gap in self.gaps_up_to(bounds):
            found[replica].append(gap)
        for key, writes in accesses(line["ops"]).items():
            users = self.users[key]
            for replica, known in users.items():
                if replica < len(bounds) and bounds[replica] >= 0:
                    found[replica] += last_users(*known, bounds[replica], writes)
            # Commands of one replica may cross, so its own array may name a later one too.
            found[own] += last_users(*users[own], before, writes)
        if own < len(bounds) and bounds[own] > before:
            found[own] = [number for number in found[own] if number != line["i"]]
        return [(replica, number) for replica in sorted(found)
                for number in sorted({*found[replica]})]  # fmt: skip


def last_users(numbers, writers, most, writes):
    """The last writer of a key up to a number and, where the key is written, its readers since."""
    end = bisect.bisect_right(numbers, most)
    last = writers[end - 1] if end else -1
    if writes:
        return numbers[max(last, 0) : end]
    return numbers[last : last + 1]


class Node:
    """A committed instance, and its prefix: the instances of its replica up to it.

    Positions count the committed instances of a replica, from 0; -1 is none of them. A reach is a
    list of the last position that is reached of each replica. It says all, since whatever is
    reached is so with its prefix."""

    __slots__ = "heads", "open_at", "rank", "reach", "own", "hub", "next"

    def __init__(self, heads):
        # The last position of each replica up to the instance's number for it.
        self.heads = heads
        # The rank of the strongly connected component of its prefix: above those that it reaches.
        self.rank = None
        # What its prefix reaches, and what the instance itself does.
        self.reach = self.own = None
        # The last position of its prefix from which all that its component reaches is reached.
        self.hub = None
        # Where the instance reaches itself, the next one in the ring of its component. One that is
        # alone is its own next.
        self.next = None

    def is_cyclic(self):
        """Whether the instance reaches itself, and so all that its prefix does."""
        return self.own is self.reach


def joined(reach, other):
    return [one if one > two else two for one, two in zip(reach, other)]


class Search:
    """The strongly connected components of prefixes, by Gabow's algorithm with two stacks.

    A prefix leads to the one before it, and to those that the numbers of its last instance
    name."""

    def __init__(self, chains):
        self.chains, self.rank = chains, 0
        self.nothing = [-1] * len(chains)
        # How many prefixes of each replica are opened, and how many of these are in a component.
        self.opened, self.closed = [0] * len(chains), [0] * len(chains)
        # Open prefixes, where a component of them may begin, and which numbers are to be followed.
        self.path, self.roots, self.todo = [], [], []
        for replica, chain in enumerate(chains):
            for position in range(len(chain)):
                if position >= self.closed[replica]:
                    self.open(replica, position)
                    self.follow()

    def open(self, replica, position):
        """Opens a prefix and those before it. The shortest of them is followed first."""
        chain, begin = self.chains[replica], self.opened[replica]
        self.opened[replica] = position + 1
        for at in range(position, begin - 1, -1):
            chain[at].open_at = len(self.path)
            self.roots.append(len(self.path))
            self.path.append((replica, at))
            self.todo.append((replica, at, 0))
        if begin > self.closed[replica]:
            self.meet(chain[begin - 1])

    def meet(self, node):
        """All that was opened since this prefix is in one component with it."""
        while self.roots[-1] > node.open_at:
            self.roots.pop()

    def follow(self):
        chains, todo, closed, opened = self.chains, self.todo, self.closed, self.opened
        while todo:
            replica, position, begin = todo.pop()
            node = chains[replica][position]
            heads = node.heads
            for other in range(begin, len(heads)):
                head = heads[other]
                if head >= closed[other]:
                    if head >= opened[other]:
                        todo.append((replica, position, other + 1))
                        self.open(other, head)
                        break
                    self.meet(chains[other][head])
            else:
                if self.roots[-1] == node.open_at:
                    self.close(node)

    def close(self, node):
        """Ends a component, which is whatever was opened since a prefix."""
        self.roots.pop()
        if node.open_at == len(self.path) - 1:
            self.close_one(node)
        else:
            members = sorted(self.path[node.open_at :])
            del self.path[node.open_at :]
            self.close_all(members)
        self.rank += 1

    def close_all(self, members):
        """Ends a component of several prefixes."""
        nodes = [self.chains[replica][position] for replica, position in members]
        for node in nodes:
            node.rank = self.rank
        parts = [self.reach_of(node) for node in nodes]
        befores = [self.chains[replica][position - 1] if position else None
                   for replica, position in members]  # fmt: skip
        whole = self.nothing
        for before, (reach, _) in zip(befores, parts):
            whole = joined(whole, reach)
            if before and before.rank != self.rank:
                whole = joined(whole, before.reach)
        for replica, position in members:
            whole[replica] = max(whole[replica], position)
            self.closed[replica] = position + 1
        for node, place, before, (reach, is_cyclic) in zip(nodes, members, befores, parts):
            node.reach, node.own = whole, whole if is_cyclic else reach
            is_hub = is_cyclic or not before or before.rank != self.rank
            node.hub = place[1] if is_hub else before.hub
        ring = [pair for pair in zip(members, nodes) if pair[1].own is whole]
        for (_, node), (place, _) in zip(ring, ring[1:] + ring[:1]):
            node.next = place

    def close_one(self, node):
        """Ends a component of one prefix."""
        replica, position = self.path.pop()
        self.closed[replica] = position + 1
        node.rank, node.hub = self.rank, position
        reach, is_cyclic = self.reach_of(node)
        before = self.chains[replica][position - 1].reach if position else self.nothing
        node.reach = joined(reach, before)
        node.reach[replica] = position
        node.own = node.reach if is_cyclic else reach
        node.next = (replica, position) if is_cyclic else None

    def reach_of(self, node):
        """What the numbers of an instance reach outside its component, and whether they lead back
        into it."""
        reach, is_cyclic = self.nothing, False
        for other, head in enumerate(node.heads):
            if head >= 0:
                prefix = self.chains[other][head]
                if prefix.rank == node.rank:
                    is_cyclic = True
                elif reach is self.nothing:
                    reach = prefix.reach
                elif head > reach[other]:
                    reach = joined(reach, prefix.reach)
        return reach, is_cyclic


class All(Rule):
    """Numbers mean all instances up to them.

    An instance names what nothing else that it reaches does. Those that reach each other name the
    next of them, in a ring, and share what they name besides."""

    def __init__(self, commits, done, first):
        super().__init__(commits, done, first)
        # What a base has done leads to nothing: whatever it reaches is done too.
        done = set(done)
        self.numbers = [[] for _ in range(max(commits, default=-1) + 1)]
        for replica, lines in commits.items():
            self.numbers[replica] = sorted(it for it in lines if (replica, it) not in done)
        self.positions = [{number: position for position, number in enumerate(numbers)}
                          for numbers in self.numbers]  # fmt: skip
        self.named = [[(replica, number) for number in numbers]
                      for replica, numbers in enumerate(self.numbers)]  # fmt: skip
        self.chains = [[Node(self.heads_of(bounds_of(commits[replica][number])))
                        for number in numbers]
                       for replica, numbers in enumerate(self.numbers)]  # fmt: skip
        Search(self.chains)
        # By position, what an instance, or the hub in its place, reaches of its own replica.
        self.lows = [[chain[node.hub].own[replica] for node in chain]
                     for replica, chain in enumerate(self.chains)]  # fmt: skip
        # What the instances name that reach themselves.
        self.cyclic = self.share_out()

    def heads_of(self, bounds):
        heads = []
        for replica, positions in enumerate(self.positions):
            most = bounds[replica] if replica < len(bounds) else -1
            head = positions.get(most)
            if head is None:
                head = bisect.bisect_right(self.numbers[replica], most) - 1
            heads.append(head)
        return heads

    def share_out(self):
        """The pairs of those that reach themselves. Each names the next one of its ring, and what
        those before it have left of what its numbers mean."""
        shared, pairs = {}, {}
        for replica, chain in enumerate(self.chains):
            for position, node in enumerate(chain):
                if node.next:
                    found = pairs[replica, position] = []
                    known = shared.get(node.rank) or [-1] * len(self.chains)
                    known = self.add_pairs(found, node, known)
                    shared[node.rank] = joined(known, node.heads)
                    if node.next != (replica, position):
                        found.append(self.named[node.next[0]][node.next[1]])
        return pairs

    def pairs(self, line):
        replica, bounds = line["r"], bounds_of(line)
        position, found = self.positions[replica].get(line["i"]), self.gaps_up_to(bounds)
        # One that a base has done has no node, and gets one of its own.
        node = Node(self.heads_of(bounds)) if position is None else self.chains[replica][position]
        if node.next:
            found += self.cyclic[replica, position]
        else:
            self.add_pairs(found, node, [-1] * len(self.chains))
        return sorted(found)

    def add_pairs(self, found, node, reached):
        """Adds the pairs of an instance, where so much of what it reaches is reached without."""
        chains, ring = self.chains, node.rank if node.next else None
        # Those of the highest rank are last, and come first: no other one reaches them.
        heads = sorted((chains[replica][head].rank, replica, head)
                       for replica, head in enumerate(node.heads) if head > reached[replica])
        while len(heads) > 1 or heads and ring is not None:
            rank, replica, position = heads.pop()
            if rank != ring:
                position = chains[replica][position].hub
            other = chains[replica][position]
            if rank != ring or not other.next:
                found.append(self.named[replica][position])
                reached = joined(reached, other.own)
            heads = [head for head in heads if head[2] > reached[head[1]]]
            if position - 1 > reached[replica]:
                rank = chains[replica][position - 1].rank
                bisect.insort(heads, (rank, replica, position - 1))
        for _, replica, position in heads:
            # Only one replica is left, so what is reached of others is not asked for.
            lows, at, most = self.lows[replica], position, reached[replica]
            while at > most:
                if lows[at] > most:
                    most = lows[at]
                at -= 1
            found += self.named[replica][at + 2 : position + 1]
            found.append(self.named[replica][chains[replica][at + 1].hub])
        return reached


KINDS = {"conflicting": Conflicting, "all": All}
