#!/usr/bin/env python3
"""A replica of EPaxos (Moraru, Andersen and Kaminsky, SOSP 2013) whose commands `epx follow`
executes.

    replica.py FOLDER NUMBER [--replicas N] [--program EPX]

FOLDER is that of all replicas, and NUMBER counts from 0. In FOLDER/NUMBER/ the replica has its
`log.jsonl`, its `state`, the list `executed` of what it executed, and the `port` at which clients
and peers reach it on the loopback. It goes on from what it finds there. README.md says more.
"""

import argparse
import asyncio
import collections
import contextlib
import dataclasses
import fcntl
import json
import os
import pathlib
import random
import shutil
import signal
import time

PRE_ACCEPTED, ACCEPTED, COMMITTED = "pre-accepted", "accepted", "committed"
# Seconds after which a replica recovers an instance that is not committed; at random up to twice as
# long, so that seldom two do so at once.
RECOVER_AFTER = 0.5
# Seconds that a leader waits for its fast quorum once it has a majority.
PATIENCE = 0.05
# Seconds between two looks at the clock, and between two Known messages.
TICK, KNOWN_EVERY = 0.05, 0.5
# The most commits that answer one Known, and the most bytes of a line and of what a link holds.
MANY, LINE, BACKLOG = 1000, 2**20, 2**24
# The most keys of a command, and of commands that a replica leads and that are not committed. More
# could lead to more than 256 dependencies, which epx does not take.
MOST_KEYS, UNDER_WAY = 16, 20

# --- Commands ---

# What follows the word of an operation: a key, a value, or a value or null.
FORMS = {"get": "k", "put": "kv", "del": "k", "add": "kv", "is": "kn", "floor": "kv", "copy": "kk"}


def is_argument(kind, value):
    if kind == "k":
        # a half of a pair of surrogates has no bytes in UTF-8
        is_text = isinstance(value, str) and not any("\ud800" <= c <= "\udfff" for c in value)
        return is_text and 1 <= len(value.encode()) <= 64
    return (kind == "n" and value is None) or (type(value) is int and -(2**63) <= value < 2**63)


def is_command(ops):
    """Whether a line is a list of operations that epx takes. Another one would stop all replicas:
    they would commit it, and `epx follow` ends at a bad line."""
    return isinstance(ops, list) and len(ops) <= 64 and all(
        isinstance(op, list) and op and isinstance(op[0], str)
        and len(op) - 1 == len(FORMS.get(op[0], "")) > 0
        and all(map(is_argument, FORMS[op[0]], op[1:]))
        for op in ops
    ) and len(touched(ops)) <= MOST_KEYS  # fmt: skip


def touched(ops):
    """The keys of a command, and of each whether it is written."""
    keys = {}
    for word, key, *rest in ops:
        keys[key] = keys.get(key, False) or word in ("put", "del", "add")
        if word == "copy":
            keys[rest[0]] = True
    return keys


class Key:
    """What a replica knows of the instances that touch a key. The sets lack those that others in
    the sets reach by dependencies of committed instances. The numbers are over all."""

    def __init__(self):
        self.writers, self.readers = set(), set()
        self.write_seq = self.read_seq = 0


class Conflicts:
    """Which instances interfere: they touch one key, and one of them writes it."""

    def __init__(self):
        self.keys = collections.defaultdict(Key)

    def attributes(self, name, ops):
        """The sequence number and the dependencies of a command. It depends on each instance known
        here that interferes with it, directly or by dependencies that are final. A read depends on
        reads of its own replica too, so that a later write need not name all reads."""
        seq, deps = 0, set()
        for key, writes in touched(ops).items():
            known = self.keys[key]
            deps |= known.writers
            deps |= {other for other in known.readers if writes or other[0] == name[0]}
            seq = max(seq, known.write_seq, known.read_seq if writes else 0)
        return seq + 1, frozenset(deps - {name})

    def note(self, name, instance):
        """Takes in an instance. Once it is committed, what depends on it need not name what it
        depends on. A read never takes the place of a write, since later reads do not depend on
        it."""
        passed = instance.deps if instance.status == COMMITTED else ()
        for key, writes in touched(instance.ops).items():
            known = self.keys[key]
            known.readers.difference_update(passed)
            if writes:
                known.writers.difference_update(passed)
                known.writers.add(name)
                known.write_seq = max(known.write_seq, instance.seq)
            else:
                known.readers.add(name)
                known.read_seq = max(known.read_seq, instance.seq)


# --- The protocol ---


@dataclasses.dataclass
class Instance:
    """What a replica knows of an instance, and the members of its lines in the log. A ballot is a
    number and a replica. The paper's epochs are left out, since the set of replicas is fixed."""

    seq: int = 0
    status: str = PRE_ACCEPTED
    deps: frozenset = frozenset()
    ops: list = None  # None: no command is known
    ballot: tuple = None  # the highest one seen: the replica takes part in no lower one
    vote: tuple = None  # the one in which it voted for this command, if it did
    unchanged: bool = False  # pre-accepted with the attributes that its leader proposed

    def row(self, name):
        return {"r": name[0], "i": name[1], **vars(self)}


# What a leader does with an instance, since when, and the answers by replica.
Attempt = collections.namedtuple("Attempt", "phase ballot began answers")


def encode(row):
    return json.dumps(row, default=sorted, separators=(",", ":")) + "\n"


def decode(line):
    """A row with its ballots as tuples and its dependencies as a set."""

    def mend(row):
        for member in {"ballot", "vote"} & row.keys():
            row[member] = row[member] and tuple(row[member])
        if "deps" in row:
            row["deps"] = frozenset(map(tuple, row["deps"]))
        return row

    return json.loads(line, object_hook=mend)


def command_in(row):
    return {member: row[member] for member in ("ops", "seq", "deps")}


class Replica:
    """Figures 2 and 3 of the paper, without input and output. It leaves what it must not forget in
    `lines`, its messages in `out`, and the names of what is committed in `decided`. The caller has
    the lines on the disk before it does anything with the other two.

    Of 2F + 1 replicas 2F make a fast quorum, as in section 4.3: a leader commits after one round if
    2F - 1 others have nothing to add to the attributes that it proposed. That is 2 of 3 replicas
    and 4 of 5. The smaller fast quorums of section 4.4 need another recovery, and are not used."""

    def __init__(self, me, count, rng, clock):
        self.me, self.rng, self.clock = me, rng, clock
        self.peers = [number for number in range(count) if number != me]
        self.f = count // 2
        self.instances, self.attempts, self.deadlines = {}, {}, {}
        self.conflicts = Conflicts()
        # of each replica how many instances are heard of, and how many from the first one on are
        # committed
        self.heard, self.upto = [0] * count, [0] * count
        self.tell_at = 0
        self.lines, self.out, self.decided = [], [], []
        self.counts = collections.Counter(fast=0, slow=0, recoveries=0)

    def instance(self, name):
        """What is known of an instance. Once it is heard of, it and those that its replica numbered
        before it have deadlines, after which they are recovered if they are not committed."""
        replica, number = name
        while self.heard[replica] <= number:
            new = (replica, self.heard[replica])
            self.instances[new] = Instance(ballot=(0, replica))
            self.put_off(new)
            self.heard[replica] += 1
        return self.instances[name]

    def put_off(self, name):
        """Sets a deadline anew, at more random a time after each recovery that failed."""
        often = min(self.instances[name].ballot[0], 4)
        self.deadlines[name] = self.clock() + RECOVER_AFTER * self.rng.uniform(1, 2 + often)

    def record(self, name):
        """Has an instance written to the log."""
        self.lines.append(encode(self.instances[name].row(name)))
        self.take_in(name)

    def restore(self, line):
        """Takes a line of the log after a restart. What this replica led and is not committed is
        recovered as all else."""
        row = decode(line)
        name = row.pop("r"), row.pop("i")
        self.instance(name)
        self.instances[name] = Instance(**row)
        self.take_in(name)

    def take_in(self, name):
        instance = self.instances[name]
        for other in instance.deps:
            self.instance(other)
        if instance.ops is not None:
            self.conflicts.note(name, instance)
        if instance.status == COMMITTED:
            self.attempts.pop(name, None)
            self.deadlines.pop(name, None)
            self.decided.append(name)
            while self.is_committed((name[0], self.upto[name[0]])):
                self.upto[name[0]] += 1

    def is_committed(self, name):
        return name in self.instances and self.instances[name].status == COMMITTED

    def command_of(self, name):
        return command_in(vars(self.instances[name]))

    def send(self, to, kind, name, **members):
        head = {"type": kind, "from": self.me, "to": to, "r": name[0], "i": name[1]}
        self.out.append({**head, **members})

    def send_all(self, kind, name, **members):
        for peer in self.peers:
            self.send(peer, kind, name, **members)

    def vote(self, name, ballot, status, command, unchanged=False):
        """Votes for a command with its attributes."""
        self.instance(name)
        self.instances[name] = Instance(
            **command, status=status, ballot=ballot, vote=ballot, unchanged=unchanged
        )
        self.record(name)
        self.put_off(name)

    def joins(self, name, message):
        """Whether the replica takes part in the ballot of a message. If not it says why."""
        instance = self.instance(name)
        if instance.status == COMMITTED:
            self.send(message["from"], "Commit", name, **self.command_of(name))
        elif message["ballot"] < instance.ballot:
            self.send(message["from"], "Nack", name, ballot=instance.ballot)
        else:
            self.see(name, message["ballot"])
            self.put_off(name)
            return True
        return False

    def see(self, name, ballot):
        """Remembers the highest ballot. An attempt in a lower one is over."""
        if ballot > self.instance(name).ballot:
            self.instances[name].ballot = ballot
            self.attempts.pop(name, None)

    def on_Nack(self, name, message):
        self.see(name, message["ballot"])

    def begin(self, phase, name, ballot, own, **members):
        """Asks all others, with the own answer at hand."""
        self.attempts[name] = Attempt(phase, ballot, self.clock(), {self.me: own})
        self.send_all(phase, name, ballot=ballot, **members)

    def answered(self, phase, name, message):
        """The attempt that a message answers, with this answer; None if that attempt is over."""
        found = self.attempts.get(name)
        if found and (found.phase, found.ballot) == (phase, message["ballot"]):
            found.answers[message["from"]] = message
            return found
        return None

    # Phase 1

    def propose(self, ops):
        """Starts an instance for the command of a client, and returns its name."""
        name = (self.me, self.heard[self.me])
        self.pre_accept(name, (0, self.me), ops)
        return name

    def pre_accept(self, name, ballot, ops):
        seq, deps = self.conflicts.attributes(name, ops)
        command = {"ops": ops, "seq": seq, "deps": deps}
        self.vote(name, ballot, PRE_ACCEPTED, command, unchanged=True)
        self.begin("PreAccept", name, ballot, command, **command)

    def on_PreAccept(self, name, message):
        # One vote a ballot: by its first answer the leader may have committed.
        if self.joins(name, message) and self.instances[name].vote != message["ballot"]:
            seq, deps = self.conflicts.attributes(name, message["ops"])
            seq, deps = max(seq, message["seq"]), deps | message["deps"]
            command = {"ops": message["ops"], "seq": seq, "deps": deps}
            unchanged = command == command_in(message)
            self.vote(name, message["ballot"], PRE_ACCEPTED, command, unchanged)
            self.send(message["from"], "PreAcceptOk", name, ballot=message["ballot"], **command)

    def on_PreAcceptOk(self, name, message):
        attempt = self.answered("PreAccept", name, message)
        if attempt:
            self.weigh(name, attempt)

    def weigh(self, name, attempt, is_late=False):
        """Commits if a fast quorum changed nothing, or goes on to phase 2 with a majority."""
        answers = list(map(command_in, attempt.answers.values()))
        unchanged = answers.count(self.command_of(name))
        # Only the first ballot may be fast: recoveries look for votes in no other one.
        if attempt.ballot[0] == 0 and unchanged >= 2 * self.f:
            self.decide(name, "fast")
        elif len(answers) > self.f:
            can_be_fast = attempt.ballot[0] == 0 and unchanged == len(answers)
            if is_late or not can_be_fast:
                seq = max(answer["seq"] for answer in answers)
                deps = frozenset().union(*(answer["deps"] for answer in answers))
                self.accept(name, attempt.ballot, {**answers[0], "seq": seq, "deps": deps})

    # Phase 2

    def accept(self, name, ballot, command):
        self.vote(name, ballot, ACCEPTED, command)
        self.begin("Accept", name, ballot, command, **command)

    def on_Accept(self, name, message):
        if self.joins(name, message):
            self.vote(name, message["ballot"], ACCEPTED, command_in(message))
            self.send(message["from"], "AcceptOk", name, ballot=message["ballot"])

    def on_AcceptOk(self, name, message):
        attempt = self.answered("Accept", name, message)
        if attempt and len(attempt.answers) > self.f:
            self.decide(name, "slow")

    # Commit

    def decide(self, name, how):
        self.counts[how] += 1
        self.send_all("Commit", name, **self.command_of(name))
        self.commit(name, self.command_of(name))

    def on_Commit(self, name, message):
        self.commit(name, command_in(message))

    def commit(self, name, command):
        instance = self.instance(name)
        if instance.status != COMMITTED:
            self.instances[name] = dataclasses.replace(instance, **command, status=COMMITTED)
            self.record(name)
        elif self.command_of(name) != command:
            raise AssertionError(f"instance {name} is committed in two ways")

    def on_Known(self, _, message):
        """Sends a peer commits that it lacks. How lost ones come again the paper leaves open."""
        for replica, first in enumerate(message["upto"]):
            for number in range(first, min(first + MANY, self.heard[replica])):
                if self.is_committed((replica, number)):
                    command = self.command_of((replica, number))
                    self.send(message["from"], "Commit", (replica, number), **command)

    # Explicit prepare

    def prepare(self, name):
        """Takes an instance over, in a ballot above all that were seen."""
        self.counts["recoveries"] += 1
        self.see(name, (self.instances[name].ballot[0] + 1, self.me))
        self.record(name)
        self.put_off(name)
        instance = self.instances[name]
        self.begin("Prepare", name, instance.ballot, instance.row(name))

    def on_Prepare(self, name, message):
        if self.joins(name, message):
            self.record(name)
            self.send(message["from"], "PrepareOk", name, **self.instances[name].row(name))

    def on_PrepareOk(self, name, message):
        """Goes on with what may be committed already, as figure 3 has it. Of accepted commands the
        one of the highest vote counts; the highest ballots seen are the same in all answers, so
        votes and ballots are two things (Sutra, On the correctness of Egalitarian Paxos)."""
        attempt = self.answered("Prepare", name, message)
        if not attempt or len(attempt.answers) <= self.f:
            return
        voted = [answer for answer in attempt.answers.values() if answer["vote"]]
        accepted = [answer for answer in voted if answer["status"] == ACCEPTED]
        # If the leader committed after one round, F of any F + 1 others have these votes. If F have
        # them, they and the leader are a majority, whose attributes any command may commit with.
        unchanged = [
            answer for sender, answer in attempt.answers.items()
            if answer["unchanged"] and answer["vote"] == (0, name[0]) and sender != name[0]
        ]  # fmt: skip
        if accepted:
            best = max(accepted, key=lambda answer: answer["vote"])
            self.accept(name, attempt.ballot, command_in(best))
        elif len(unchanged) >= self.f:
            self.accept(name, attempt.ballot, command_in(unchanged[0]))
        elif voted:
            self.pre_accept(name, attempt.ballot, voted[0]["ops"])
        else:
            self.accept(name, attempt.ballot, {"ops": [], "seq": 0, "deps": frozenset()})

    def on_Tick(self, *_):
        now = self.clock()
        if now >= self.tell_at:
            self.tell_at = now + KNOWN_EVERY
            self.send_all("Known", (self.me, 0), upto=self.upto[:])
        for name in [name for name, deadline in self.deadlines.items() if deadline <= now]:
            self.prepare(name)
        for name, attempt in list(self.attempts.items()):
            if attempt.phase == "PreAccept" and now - attempt.began > PATIENCE:
                self.weigh(name, attempt, is_late=True)


# --- The log and the execution stage ---


def write_whole(path, text):
    """Writes a file under a new name and renames it, so that a crash leaves no part of it."""
    new = path.with_name(path.name + ".new")
    with open(new, "w") as file:
        file.write(text)
        file.flush()
        os.fsync(file.fileno())
    new.replace(path)


def locked(path):
    """A file that one replica at a time has open. Its follower has it too, which ends soon after a
    replica that was killed."""
    file = open(path, "w")
    for _ in range(100):
        with contextlib.suppress(BlockingIOError):
            fcntl.flock(file, fcntl.LOCK_EX | fcntl.LOCK_NB)
            return file
        time.sleep(TICK)
    raise SystemExit(f"replica.py: another replica runs in {path.parent}")


class Log:
    """The file of what a replica promised: a line for each change of an instance, of which the last
    one counts. epx reads the same file, and passes over what is not committed."""

    def __init__(self, path):
        self.file = open(path, "a+b")
        self.file.seek(0)
        self.lines = self.file.read().splitlines(keepends=True)
        if self.lines and not self.lines[-1].endswith(b"\n"):
            # cut off by a crash, so that nothing which it promises was sent
            self.file.truncate(self.file.tell() - len(self.lines.pop()))

    def append(self, lines):
        if lines:
            self.file.write("".join(lines).encode())
            self.file.flush()
            os.fsync(self.file.fileno())


class Execution:
    """A process of `epx follow`, the state that it leaves, and the list of what it executed."""

    def __init__(self, program, folder, lock):
        self.program, self.state, self.lock = program, folder / "state", lock
        kept = self.in_the_state(folder / "executed")
        write_whole(folder / "executed", "".join(kept))
        self.list, self.count = open(folder / "executed", "a"), len(kept)

    def in_the_state(self, path):
        """The lines of the list that the state has. What came later is executed again."""
        if not self.state.exists():
            return []
        with open(self.state) as file:
            count = json.loads(next(file))[2]
            runs = [json.loads(next(file))[1:] for _ in range(count)]
        with open(path) as file:
            lines = [line for line in file if line.endswith("\n")]
        return [line for line, (r, i) in zip(lines, map(json.loads, lines))
                if any(r == s and first <= i <= last for s, first, last in runs)]  # fmt: skip

    async def start(self):
        words = ["follow", "--workers", "1", "--save", self.state]
        words += ["--state", self.state] if self.state.exists() else []
        # Ctrl-C is for the replica alone, which then ends the process as it should be ended.
        self.process = await asyncio.create_subprocess_exec(
            self.program, *words, stdin=asyncio.subprocess.PIPE, stdout=asyncio.subprocess.PIPE,
            limit=LINE, pass_fds=[self.lock.fileno()], start_new_session=True,
        )  # fmt: skip

    async def execute(self, lines):
        """Hands in a batch of committed lines, and returns the replies."""
        self.process.stdin.write("".join([*lines, "\n"]).encode())
        await self.process.stdin.drain()
        came = await self.process.stdout.readline()
        if not came:
            raise RuntimeError(f"epx follow ended with status {await self.process.wait()}")
        count = json.loads(came)[3]
        replies = [(await self.process.stdout.readline()).decode() for _ in range(count)]
        self.list.write("".join(encode(json.loads(reply)[1:3]) for reply in replies))
        self.list.flush()
        self.count += count
        return replies

    async def save(self):
        """Ends the process, which saves the state. What is in the state is in the list before."""
        os.fsync(self.list.fileno())
        self.process.stdin.close()
        await self.process.stdout.read()
        if await self.process.wait():
            raise RuntimeError("epx follow did not save its state")


# --- The process ---


class Link:
    """The connection by which a peer gets messages. What is sent while there is none is lost."""

    def __init__(self, path):
        self.path, self.writer = path, None

    def send(self, line):
        if self.writer and self.writer.transport.get_write_buffer_size() < BACKLOG:
            self.writer.write(line.encode())

    async def keep(self):
        while True:
            # A peer that was started again has another port.
            with contextlib.suppress(OSError, ValueError):
                port = int(self.path.read_text())
                reader, writer = await asyncio.open_connection("127.0.0.1", port)
                with contextlib.closing(writer):
                    # At a port where nobody listens a connection can meet itself.
                    if writer.get_extra_info("sockname") != writer.get_extra_info("peername"):
                        self.writer = writer
                        await reader.read()
            self.writer = None
            await asyncio.sleep(TICK)


class Server:
    """Hands the lines of peers and clients to the replica, batch by batch, and then does what it
    asks for."""

    def __init__(self, given):
        self.given, self.folder = given, given.folder / str(given.number)
        self.folder.mkdir(parents=True, exist_ok=True)
        lock = locked(self.folder / "lock")
        self.log = Log(self.folder / "log.jsonl")
        self.execution = Execution(given.program, self.folder, lock)
        rng = random.Random(f"{given.seed} {given.number}")
        self.replica = Replica(given.number, given.replicas, rng, time.monotonic)
        self.links = {peer: Link(given.folder / f"{peer}/port") for peer in self.replica.peers}
        self.clients, self.is_cut = {}, False

    async def run(self):
        """Runs until a signal comes, or a part of it fails."""
        self.inbox, self.decided, stopped = asyncio.Queue(), asyncio.Queue(), asyncio.Event()
        for line in self.log.lines:
            self.replica.restore(line)
        server = await asyncio.start_server(self.serve, "127.0.0.1", 0, limit=LINE)
        write_whole(self.folder / "port", f"{server.sockets[0].getsockname()[1]}\n")
        loop = asyncio.get_running_loop()
        for number in (signal.SIGTERM, signal.SIGINT):
            loop.add_signal_handler(number, stopped.set)
        if self.given.seconds:
            loop.call_later(self.given.seconds, stopped.set)
        execution = asyncio.ensure_future(self.execute())
        others = [self.work(), self.tick(), stopped.wait(), *map(Link.keep, self.links.values())]
        tasks = [execution, *map(asyncio.ensure_future, others)]
        ended, _ = await asyncio.wait(tasks, return_when=asyncio.FIRST_COMPLETED)
        for task in ended:
            task.result()
        self.decided.put_nowait(None)
        await execution

    async def tick(self):
        while True:
            self.inbox.put_nowait({"type": "Tick"})
            await asyncio.sleep(TICK)

    async def work(self):
        while True:
            messages = [await self.inbox.get()]
            while not self.inbox.empty():
                messages.append(self.inbox.get_nowait())
            for message in messages:
                self.handle(message)
            await self.flush()

    def handle(self, message):
        replica, kind = self.replica, message["type"]
        if kind != "Propose":
            getattr(replica, f"on_{kind}")((message.get("r"), message.get("i")), message)
        elif sum(leader == replica.me for leader, _ in replica.deadlines) < UNDER_WAY:
            self.clients[replica.propose(message["ops"])] = message
        else:
            message["answer"].set_result(encode(["refused", "too many commands are under way"]))

    async def flush(self):
        """Does what the replica asks for: the log first, with one fsync for a whole batch."""
        replica = self.replica
        lines, out, decided = replica.lines, replica.out, replica.decided
        replica.lines, replica.out, replica.decided = [], [], []
        await asyncio.get_running_loop().run_in_executor(None, self.log.append, lines)
        for message in out:
            if not self.is_cut:
                self.links[message["to"]].send(encode(message))
        for name in decided:
            instance = replica.instances[name]
            if name in self.clients and self.clients[name]["ops"] != instance.ops:
                # Another replica took it over and found no command: the client's is proposed anew.
                self.inbox.put_nowait(self.clients.pop(name))
            self.decided.put_nowait(encode(instance.row(name)))

    async def execute(self):
        """Executes what is committed, answers clients, and saves the state now and then."""
        await self.execution.start()
        unsaved, goes_on = 0, True
        while goes_on:
            lines = [await self.decided.get()]
            while not self.decided.empty():
                lines.append(self.decided.get_nowait())
            goes_on = None not in lines
            for reply in await self.execution.execute(filter(None, lines)):
                client = self.clients.pop(tuple(json.loads(reply)[1:3]), None)
                if client:
                    client["answer"].set_result(reply)
            unsaved += len(lines)
            if unsaved >= self.given.save_every or not goes_on:
                unsaved = 0
                await self.execution.save()
                if goes_on:
                    await self.execution.start()

    async def serve(self, reader, writer):
        """A connection. Objects are messages of a peer, and arrays are words of a client."""
        # It is cancelled as the replica ends.
        ends = (ConnectionError, ValueError, asyncio.CancelledError)
        with contextlib.suppress(*ends), contextlib.closing(writer):
            async for line in reader:
                try:
                    row = decode(line)
                except (ValueError, TypeError, RecursionError):
                    row = None
                if not isinstance(row, dict):
                    writer.write((await self.answer(row)).encode())
                    await writer.drain()
                elif row.get("to") != self.replica.me:
                    # The port was that of another replica. The peer looks again once this closes.
                    return
                elif not self.is_cut:
                    self.inbox.put_nowait(row)

    async def answer(self, row):
        replica = self.replica
        if row == ["status"]:
            counts = {"executed": self.execution.count, **replica.counts}
            return encode({"heard": replica.heard, "upto": replica.upto, **counts})
        if self.given.allow_cut and row in (["cut"], ["heal"]):
            self.is_cut = row == ["cut"]
            return encode(row)
        if not is_command(row):
            return encode(["refused", "this is no list of operations that a replica takes"])
        answer = asyncio.get_running_loop().create_future()
        self.inbox.put_nowait({"type": "Propose", "ops": row, "answer": answer})
        return await answer


def find_program():
    """The program that was built or installed beside this example, else `epx` of the path."""
    top = pathlib.Path(__file__).resolve().parent.parent.parent
    places = [top / "crates/epx/out/epx", top / "bin/epx", top / "epx"]
    return next((str(place) for place in places if place.is_file()), "epx")


def arguments():
    form = argparse.RawDescriptionHelpFormatter
    words = argparse.ArgumentParser(description=__doc__, formatter_class=form)
    words.add_argument("folder", type=pathlib.Path)
    words.add_argument("number", type=int)
    words.add_argument("--replicas", type=int, default=3, choices=[3, 5])
    words.add_argument("--program", default=find_program(), help="epx")
    words.add_argument("--save-every", type=int, default=1000, help="commits between two states")
    words.add_argument("--seed", type=int, default=1, help="of the waits before recoveries")
    words.add_argument("--seconds", type=int, help="after which it stops by itself")
    cut = 'takes ["cut"], after which messages of peers are dropped, and ["heal"]'
    words.add_argument("--allow-cut", action="store_true", help=cut)
    given = words.parse_args()
    if not shutil.which(given.program):
        words.error(f"there is no program {given.program}")
    if not 0 <= given.number < given.replicas:
        words.error(f"there is no replica {given.number} of {given.replicas}")
    return given


if __name__ == "__main__":
    asyncio.run(Server(arguments()).run())
