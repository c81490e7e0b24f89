#!/usr/bin/env python3
"""Runs the protocol of replica.py by itself, through random schedules.

    schedules.py [--runs N] [--seed N]

Three or five replicas lead a few commands on two keys. Messages come in any order, some twice, some
never. A minority is cut off now and then, replicas crash and take back what they logged, and any
instance is recovered at any time. Commits are lost most of all, since what is committed is hard to
find out then. In the end all messages come. The exit status is 1 where a run does not end so:

- all is committed, and nowhere in two ways; an instance has the command that was proposed in it, or
  none
- of two commands that interfere, one depends on the other, directly or through others
- a command that was proposed once another one was committed is executed after it, if they
  interfere: it depends on it, and if that one depends on it too, it has a higher sequence number
"""

import argparse
import random
import sys

from replica import Replica, decode, encode, touched


class Run:
    """The replicas of a run, the messages on their way, and what was committed when."""

    def __init__(self, seed):
        self.rng = random.Random(f"schedule {seed}")
        self.count = self.rng.choice([3, 5])
        self.numbers = range(self.count)
        self.twice, self.crash = self.rng.choice([0, 0.2]), self.rng.choice([0, 0.03, 0.1])
        self.most = self.rng.choice([1, 2, 3, 5])
        self.logs = [[] for _ in self.numbers]
        self.replicas = [self.new_replica(number) for number in self.numbers]
        self.connected, self.messages, self.time = self.numbers, [], 0
        self.proposed, self.committed = {}, {}

    def new_replica(self, number):
        replica = Replica(number, self.count, self.rng, lambda: self.time)
        for line in self.logs[number]:
            replica.restore(line)
        replica.decided = []
        return replica

    def step(self, number, call):
        """Has a replica do something, and takes what it asks for. It may crash before or after."""
        replica = self.replicas[number]
        result = call(replica)
        is_lost = self.rng.random() < self.crash
        if not is_lost:
            self.take(number, replica)
        if is_lost or self.rng.random() < self.crash:
            self.replicas[number] = self.new_replica(number)
        return None if is_lost else result

    def take(self, number, replica):
        self.logs[number] += replica.lines
        for message in replica.out:
            self.messages += [encode(message)] * (1 + (self.rng.random() < self.twice))
        for name in replica.decided:
            command = replica.command_of(name)
            first = self.committed.setdefault(name, (command, self.time))
            assert first[0] == command, f"{name} is committed in two ways"
        replica.lines, replica.out, replica.decided = [], [], []

    def propose(self):
        if len(self.proposed) >= self.most:
            return
        key = self.rng.choice(["a", "a", "a", "b"])
        ops = [["get", key]] if self.rng.random() < 0.3 else [["put", key, self.time]]
        name = self.step(self.rng.choice(self.connected), lambda replica: replica.propose(ops))
        if name:
            self.proposed[name] = (ops, self.time)

    def recover(self):
        number = self.rng.choice(self.connected)
        names = list(self.replicas[number].deadlines)
        if names:
            name = self.rng.choice(names)
            self.step(number, lambda replica: replica.prepare(name))

    def end_waits(self):
        """Ends a wait for a fast quorum, as time does."""
        number = self.rng.choice(self.connected)
        for name, attempt in list(self.replicas[number].attempts.items()):
            if attempt.phase == "PreAccept":
                self.step(number, lambda replica: replica.weigh(name, attempt, is_late=True))
                return

    def deliver(self):
        """Hands over any message between replicas that are connected."""
        self.rng.shuffle(self.messages)
        for at, line in enumerate(self.messages):
            message = decode(line)
            if {message["from"], message["to"]} <= set(self.connected):
                del self.messages[at]
                handler, name = f"on_{message['type']}", (message["r"], message["i"])
                self.step(message["to"], lambda one: getattr(one, handler)(name, message))
                return True
        return False

    def trouble(self):
        for _ in range(self.rng.randrange(1, 6)):
            connected = self.rng.randrange(self.count // 2 + 1, self.count + 1)
            self.connected = self.rng.sample(self.numbers, connected)
            steps = [self.deliver] * 20 + [self.propose] * 3 + [self.end_waits]
            steps += [self.recover] * self.rng.choice([0, 1, 4])
            for _ in range(self.rng.choice([5, 15, 40])):
                self.time += 1
                self.rng.choice(steps)()
            kept = self.rng.choice([0.3, 0.7, 1])
            self.messages = [
                line for line in self.messages
                if self.rng.random() < kept and '"Commit"' not in line
            ]  # fmt: skip

    def end(self):
        """Lets all messages through until all is committed."""
        self.connected, self.twice, self.crash = self.numbers, 0, 0
        for _ in range(1000):
            self.time += 1
            if not any(replica.deadlines for replica in self.replicas):
                return
            self.recover()
            while self.deliver():
                pass
        raise AssertionError("not all is committed")

    def reached(self, name):
        """What an instance depends on, directly or through others."""
        found, left = set(), [name]
        while left:
            new = self.committed[left.pop()][0]["deps"] - found
            found |= new
            left += new
        return found

    def look(self):
        reached = {name: self.reached(name) for name in self.committed}
        for name, (command, when) in self.committed.items():
            ops, keys = command["ops"], touched(command["ops"])
            assert not ops or ops == self.proposed[name][0], f"{name} has another command"
            for other, (later, _) in self.committed.items():
                others = touched(later["ops"])
                if other == name or not any(k in others and (keys[k] or others[k]) for k in keys):
                    continue
                assert name in reached[other] or other in reached[name], f"{name}, {other}"
                if self.proposed[other][1] > when:
                    is_after = other not in reached[name] or later["seq"] > command["seq"]
                    assert name in reached[other] and is_after, f"{other} is not after {name}"


def main():
    form = argparse.RawDescriptionHelpFormatter
    words = argparse.ArgumentParser(description=__doc__, formatter_class=form)
    words.add_argument("--runs", type=int, default=1000)
    words.add_argument("--seed", type=int, default=1)
    given = words.parse_args()
    instances = 0
    for seed in range(given.seed, given.seed + given.runs):
        run = Run(seed)
        try:
            run.trouble()
            run.end()
            run.look()
        except AssertionError as error:
            print(f"schedules.py: --seed {seed} --runs 1: {error}", file=sys.stderr)
            return 1
        instances += len(run.committed)
    print(f"{given.runs} runs with {instances} instances")
    return 0


if __name__ == "__main__":
    sys.exit(main())
