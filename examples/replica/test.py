#!/usr/bin/env python3
"""Tests the example: starts replicas, troubles them, and has epx compare what they did.

    test.py [--seed N] [--replicas N] [--program EPX] [--keep FOLDER]

Several clients of each replica send commands on few keys. Meanwhile one replica is killed and
started again, and another one is cut off from its peers for a while. Then all must be committed
everywhere, and the exit status is 1 where one of these does not hold:

- every reply that a client got is the one in the report of `run` over all logs, and the command
  there is the client's; no command is committed twice
- the logs say the same, which `compare` finds, and nothing waits
- the stores that the replicas saved are that of the report
- the logs are covered, which `audit` finds
- the clients saw one copy, which `linear` finds of the times at which they sent their commands and
  had the replies
- what each replica executed, in its order, is lawful, which `check` finds; while the others still
  ran, it was for the replicas that ran so far (`check --prefix`)
"""

import argparse
import asyncio
import collections
import contextlib
import json
import pathlib
import random
import shutil
import subprocess
import sys
import tempfile
import time

import cluster
from replica import find_program

CLIENTS = 2  # of each replica
KEYS = ("a", "b", "c")
MOST = 2000  # commands of a client
LIMIT = 100  # seconds for all
KILLED, CUT = 1, 2  # the replica that is killed, and the one that is cut off


class Wrong(Exception):
    """What differs."""


class Progress:
    """How many replies the clients of each replica have."""

    def __init__(self):
        self.counts, self.changed = collections.Counter(), asyncio.Condition()

    async def add(self, replica):
        async with self.changed:
            self.counts[replica] += 1
            self.changed.notify_all()

    async def more(self, count, replicas):
        """Waits for so many more replies of these replicas."""
        end = count + sum(self.counts[replica] for replica in replicas)
        async with self.changed:
            await self.changed.wait_for(
                lambda: sum(self.counts[replica] for replica in replicas) >= end
            )


class Client:
    """Sends random commands to one replica, each after the reply to the one before.

    Of each instance it has the reply, the command, and when it sent this and had the reply, in
    nanoseconds of one clock; of what was not answered the command, and when it was sent."""

    def __init__(self, number, replica, folder, rng):
        self.number, self.replica, self.rng = number, replica, rng
        self.port = folder / str(replica) / "port"
        self.replies, self.unknown = {}, []

    def command(self, count):
        """A command that no other client sends, since the key at its end has its name."""
        key, other = self.rng.sample(KEYS, 2)
        value = self.rng.randrange(100)
        ops = self.rng.choice([
            [["put", key, value]],
            [["get", key], ["get", other]],
            [["get", key]],
            [["add", key, value], ["get", key]],
            [["floor", key, value], ["add", key, -value], ["add", other, value]],
            [["copy", key, other], ["del", key]],
            [["is", key, None], ["put", key, value]],
            [["add", "all", 1], ["get", "all"]],
        ])  # fmt: skip
        return [*ops, ["get", f"client {self.number} command {count}"]]

    async def run(self, progress, enough):
        """Sends commands until there are enough. Connects again where the replica was killed."""
        count = 0
        while count < MOST and not enough.is_set():
            with contextlib.suppress(OSError, ValueError):
                port = int(self.port.read_text())
                reader, writer = await asyncio.open_connection("127.0.0.1", port)
                with contextlib.closing(writer):
                    while count < MOST and not enough.is_set():
                        count += 1
                        await self.send(reader, writer, self.command(count))
                        await progress.add(self.replica)
            # the replica is gone: it has another port when it is back
            await asyncio.sleep(0.02)

    async def send(self, reader, writer, ops):
        invoked = time.monotonic_ns()
        self.unknown.append((ops, invoked))
        writer.write(json.dumps(ops).encode() + b"\n")
        reply = (await reader.readline()).decode()
        returned = time.monotonic_ns()
        if not reply.endswith("\n"):
            raise ConnectionError("whether the command is executed is not known")
        self.unknown.pop()
        row = json.loads(reply)
        if row[0] != "reply":
            raise Wrong(f"{ops} is answered by {reply}")
        self.replies[row[1], row[2]] = (reply, ops, invoked, returned)


class Cluster:
    """The replicas of a test, in a folder."""

    def __init__(self, given, folder):
        self.given, self.folder = given, folder
        self.numbers = range(given.replicas)
        self.words = ["--replicas", str(given.replicas), "--program", given.program]
        self.words += ["--seed", str(given.seed), "--save-every", "20", "--allow-cut"]
        # should the test be killed, they end some time later
        self.words += ["--seconds", str(2 * LIMIT)]
        self.processes = {}

    async def start(self, number):
        with open(self.folder / f"errors of {number}", "a") as errors:
            self.processes[number] = await asyncio.get_running_loop().run_in_executor(
                None, cluster.start, self.folder, number, self.words, errors
            )

    def kill(self, number):
        self.processes[number].kill()
        self.processes[number].wait()

    async def ask(self, number, word):
        """What a replica answers to a word that is no command."""
        port = int((self.folder / str(number) / "port").read_text())
        reader, writer = await asyncio.open_connection("127.0.0.1", port)
        with contextlib.closing(writer):
            writer.write(json.dumps([word]).encode() + b"\n")
            return json.loads(await reader.readline())

    async def settled(self):
        """Waits until all is committed and executed everywhere."""
        while True:
            found = [await self.ask(number, "status") for number in self.numbers]
            if all(
                one["heard"] == one["upto"] == found[0]["upto"]
                and one["executed"] == sum(one["upto"])
                for one in found
            ):
                return found
            await asyncio.sleep(0.05)

    def file(self, number, name):
        return self.folder / str(number) / name

    def whole_lines(self, number, name):
        """A file as it is now, without a line that is being written."""
        text = self.file(number, name).read_bytes()
        return text[: text.rfind(b"\n") + 1]

    def check_now(self, numbers):
        """Checks what replicas have executed so far."""
        lists = [self.whole_lines(number, "executed") for number in numbers]
        with tempfile.TemporaryDirectory() as name:
            paths = [pathlib.Path(name) / str(number) for number in self.numbers]
            for number, path in zip(self.numbers, paths):
                path.write_bytes(self.whole_lines(number, "log.jsonl"))
            for number, executed in zip(numbers, lists):
                found = self.epx("check", "--prefix", "-", *paths, text=executed)
                if found != '["lawful"]\n':
                    raise Wrong(f"what replica {number} executed so far is {found}")

    def epx(self, *words, text=b""):
        done = subprocess.run([self.given.program, *words], input=text, capture_output=True)
        if done.returncode:
            raise Wrong(f"epx {words[0]}: {done.stderr.decode()}{done.stdout.decode()}")
        return done.stdout.decode()


async def trouble(replicas, progress, enough):
    """Kills one replica and starts it again, and cuts one off for a while."""
    rng = random.Random(f"trouble {replicas.given.seed}")
    others = [number for number in replicas.numbers if number != KILLED]
    connected = [number for number in replicas.numbers if number != CUT]
    await progress.more(rng.randrange(60, 120), replicas.numbers)
    replicas.kill(KILLED)
    if not replicas.file(KILLED, "state").exists():
        raise Wrong("no state was saved")
    await progress.more(30, others)
    replicas.check_now(others)
    await replicas.start(KILLED)
    await progress.more(20, [KILLED])
    await replicas.ask(CUT, "cut")
    await progress.more(40, connected)
    replicas.check_now(replicas.numbers)
    await replicas.ask(CUT, "heal")
    await progress.more(20, [CUT])
    enough.set()


async def run(given, folder):
    replicas, progress, enough = Cluster(given, folder), Progress(), asyncio.Event()
    try:
        for number in replicas.numbers:
            await replicas.start(number)
        clients = [
            Client(number, number % given.replicas, folder, random.Random(f"{given.seed} {number}"))
            for number in range(CLIENTS * given.replicas)
        ]
        runs = [client.run(progress, enough) for client in clients]
        await asyncio.gather(trouble(replicas, progress, enough), *runs)
        counts = await replicas.settled()
        if not cluster.stop(replicas.processes.values()):
            raise Wrong("a replica did not end with status 0")
    finally:
        for number in replicas.processes:
            replicas.kill(number)
    return replicas, clients, counts


def history_of(clients, commands):
    """The calls of clients, as lines. What was not answered is looked for among the commands of the
    logs, by its end."""
    names = {json.dumps(ops[-1]): name for name, ops in commands.items() if ops}
    rows = []
    for client in clients:
        for name, (reply, _, *times) in client.replies.items():
            rows.append(["call", *name, *times, *json.loads(reply)[3:]])
        for ops, invoked in client.unknown:
            name = names.get(json.dumps(ops[-1]))
            rows += [["call", *name, invoked, None]] if name else []
    return "".join(json.dumps(row) + "\n" for row in rows)


def compare(replicas, clients):
    """Compares what clients and replicas have with what epx says of all logs."""
    logs = [replicas.file(number, "log.jsonl") for number in replicas.numbers]
    report = replicas.epx("run", "--exit-code", *logs)
    replicas.epx("compare", "--exit-code", *logs)
    replicas.epx("audit", "--exit-code", *logs)
    lines = report.splitlines(keepends=True)
    replies = {tuple(json.loads(line)[1:3]): line for line in lines if line.startswith('["reply"')}
    store = [line for line in lines if line.startswith('["store"')]
    for number in replicas.numbers:
        replicas.epx("check", "--exit-code", replicas.file(number, "executed"), *logs)
        saved = replicas.file(number, "state").read_text().splitlines(keepends=True)
        if [line for line in saved if line.startswith('["store",')] != store:
            raise Wrong(f"the store of replica {number}")
    rows = [json.loads(line) for log in logs for line in log.read_text().splitlines()]
    commands = {(row["r"], row["i"]): row["ops"] for row in rows if row["status"] == "committed"}
    for client in clients:
        for name, (reply, ops, *_) in client.replies.items():
            if replies.get(name) != reply or commands[name] != ops:
                raise Wrong(f"{ops} was answered by {reply}; of {commands[name]} the report has "
                            f"{replies.get(name)}")  # fmt: skip
    ends = collections.Counter(json.dumps(ops[-1]) for ops in commands.values() if ops)
    if max(ends.values()) > 1:
        raise Wrong(f"a command is committed twice: {ends.most_common(1)}")
    history = replicas.folder / "history"
    history.write_text(history_of(clients, commands))
    replicas.epx("linear", "--exit-code", history, *logs)


def main():
    form = argparse.RawDescriptionHelpFormatter
    words = argparse.ArgumentParser(description=__doc__, formatter_class=form)
    words.add_argument("--seed", type=int, default=1)
    words.add_argument("--replicas", type=int, default=3, choices=[3, 5])
    words.add_argument("--program", default=find_program())
    words.add_argument("--keep", type=pathlib.Path, help="a new folder for what is written")
    given = words.parse_args()
    if not shutil.which(given.program):
        words.error(f"there is no program {given.program}")
    if given.keep and given.keep.exists():
        words.error(f"{given.keep} is there already")
    with contextlib.ExitStack() as stack:
        folder = given.keep or pathlib.Path(stack.enter_context(tempfile.TemporaryDirectory()))
        folder.mkdir(parents=True, exist_ok=True)
        try:
            found = asyncio.run(asyncio.wait_for(run(given, folder), LIMIT))
            compare(*found[:2])
        except (Wrong, asyncio.TimeoutError) as error:
            for path in sorted(folder.glob("errors of *")):
                print(f"{path.name}: {path.read_text()}", file=sys.stderr)
            print(f"test.py: {error or 'it did not end in time'}", file=sys.stderr)
            return 1
    _, clients, counts = found
    sums = {word: sum(one[word] for one in counts) for word in ("fast", "slow", "recoveries")}
    print(f"{sum(len(client.replies) for client in clients)} replies, "
          f"{sum(len(client.unknown) for client in clients)} unknown; {sums}")  # fmt: skip
    return 0


if __name__ == "__main__":
    sys.exit(main())
