"""epx from Python: runs the program and gives its answers as values.

    import epx
    report = epx.report(["0.jsonl", "1.jsonl"])
    report.store["alice"], report.replies[0].values

A log is a path, or its bytes. `Fault` is raised where epx refuses the logs, and with
`exit_code=True` `Finding` where an answer finds something. A `Follower` keeps the program open, and
hands in lines batch by batch:

    with epx.Follower() as follower:
        replies = follower.commit(lines)

Nothing but the standard library is needed, and the program at `epx.PROGRAM`: where there is none,
`FileNotFoundError` is raised.
"""

import contextlib
import dataclasses
import json
import os
import pathlib
import re
import subprocess
import tempfile
import threading

HERE = pathlib.Path(__file__).resolve().parent
FINDS = 5  # the status of an answer that finds something, with `--exit-code`


def find_program():
    """The program that was built, unpacked or installed with this module, else `epx` of the
    path."""
    places = [HERE.parent / "crates/epx/out/epx", HERE.parent.parent / "bin/epx"]
    if not (HERE.parent / "crates").exists():
        # in the repository this file is the script that builds
        places.insert(0, HERE.parent / "epx")
    return next((str(place) for place in places if place.is_file()), "epx")


PROGRAM = find_program()


class Fault(Exception):
    """Why there is no answer: the line of standard error, the fault's number (None: the words
    were refused), and the exit status.

    Of a follower, `batch` has the lines that got no replies, and `index` is that of the line at
    fault among them, or None."""

    def __init__(self, text, status, batch=None, index=None):
        super().__init__(text)
        words = text.split()
        self.status, self.batch, self.index = status, batch, index
        self.number = int(words[2][:-1]) if words[:2] == ["epx:", "fault"] else None


class Finding(Exception):
    """An answer that finds something, where `exit_code` asks for this: in `answer` what the call
    else returns."""

    def __init__(self, text, answer):
        super().__init__(text)
        self.answer = answer


@dataclasses.dataclass(frozen=True, order=True)
class Id:
    """An instance: its replica, and its number there."""

    replica: int
    number: int


@dataclasses.dataclass(frozen=True)
class Reply:
    """What a command replied: the values that it read, None for an absent key; or, where it
    aborted, the place of the operation that did."""

    id: Id
    values: tuple
    aborted_at: int = None


@dataclasses.dataclass(frozen=True)
class Waiting:
    """An instance that waits, and the least missing instance that it reaches."""

    id: Id
    missing: Id


@dataclasses.dataclass
class Report:
    """A report: instances that were done before, replies in execution order, what waits, the
    store."""

    components: int
    done: list
    replies: list
    waiting: list
    store: dict
    text: bytes


@dataclasses.dataclass
class Said:
    """What a replica says of itself: its replies in the order in which it executed, and its store.
    `text` has it as lines."""

    replies: list
    store: dict

    @property
    def text(self):
        rows = [("reply", it.id.replica, it.id.number, *outcome_of(it)) for it in self.replies]
        rows += [("store", key, self.store[key]) for key in sorted(self.store, key=str.encode)]
        return b"".join(json.dumps(row).encode() + b"\n" for row in rows)


@dataclasses.dataclass(frozen=True)
class Call:
    """The call of a client: its instance, when it was invoked and, if an answer came, when this was
    and what it said, if that is known. Times are whole numbers of one clock. `text` has it as a
    line of a history."""

    id: Id
    invoked: int
    returned: int = None
    reply: Reply = None

    @property
    def text(self):
        end = outcome_of(self.reply) if self.reply else ()
        row = ("call", self.id.replica, self.id.number, self.invoked, self.returned, *end)
        return json.dumps(row).encode() + b"\n"


@dataclasses.dataclass
class Linear:
    """What is found of a history: the calls whose answer is not their reply, those that are
    executed too late, each with the call before which it had returned, and those that returned and
    are not executed. `findings` has them as the rows of the answer."""

    replies: list
    late: list
    lost: list
    findings: list

    @property
    def is_linear(self):
        return not self.findings


@dataclasses.dataclass(frozen=True)
class Blocker:
    """A missing instance: how many instances reach it and no other missing one, and how many name
    it among their dependencies."""

    id: Id
    alone: int
    named: int


@dataclasses.dataclass
class Blockers:
    """The missing instances by their Ids, and how many instances reach more than one of them."""

    missing: list
    several: int

    @property
    def waiting(self):
        """How many instances wait."""
        return self.several + sum(one.alone for one in self.missing)


@dataclasses.dataclass(frozen=True)
class Uncovered:
    """Two instances that would have to be related because of a key; `before` is executed first."""

    before: Id
    after: Id
    key: str


@dataclasses.dataclass(frozen=True)
class Ordered:
    """An instance of the execution order, with its depth and its component's leader."""

    id: Id
    depth: int
    leader: Id


@dataclasses.dataclass(frozen=True)
class Level:
    """A ready instance, and the conflict level of its command."""

    id: Id
    level: int


def report(logs, workers=4, exit_code=False):
    """The report of logs. With `exit_code` it is a finding that an instance waits."""
    return ask("run", logs, workers, exit_code, read_report)


def resume(base, logs, workers=4, exit_code=False):
    """The report that resumes from an earlier one, a path, its bytes or a `Report`. With
    `exit_code` it is a finding that an instance waits."""
    first = base.text if isinstance(base, Report) else base
    return ask("resume", [first, *logs], workers, exit_code, read_report)


def order(logs, workers=4, exit_code=False):
    """The ready instances in execution order. With `exit_code` it is a finding that others
    wait."""
    return ask("order", logs, workers, exit_code, read_order)


def levels(logs, workers=4, exit_code=False):
    """The conflict levels of the ready instances, in execution order. With `exit_code` it is a
    finding that others wait."""
    return ask("levels", logs, workers, exit_code, read_levels)


def blockers(logs, workers=4, exit_code=False):
    """How many instances each missing one blocks, as `Blockers`. With `exit_code` it is a finding
    that an instance waits."""
    return ask("blockers", logs, workers, exit_code, read_blockers)


def graph(logs, workers=4, around=None, steps=1):
    """The dependency graph as a text in DOT, the language of Graphviz; with `around` the part
    within so many steps of this instance."""
    options = [] if around is None else ["--around", name_of(around), "--steps", str(steps)]
    return ask("graph", logs, workers, False, bytes.decode, options)


def audit(logs, workers=4, exit_code=False):
    """The least two ready instances that conflict and are not related, or None: covered. With
    `exit_code` such a pair is a finding."""
    return ask("audit", logs, workers, exit_code, read_pair)


def audit_all(logs, workers=4, exit_code=False):
    """All pairs that would have to be related, as `Uncovered`: none where the logs are covered.
    With `exit_code` a pair is a finding."""
    return ask("audit", logs, workers, exit_code, read_pairs, ["--all"])


def check(instances, logs, workers=4, prefix=False, exit_code=False):
    """What is wrong with a list of instances as an order, or as the beginning of one, as a row of
    the answer, or None: lawful. With `exit_code` all but lawful is a finding."""
    options = ["--prefix"] if prefix else []
    lines = list_of(instances)
    return ask("check", [lines, *logs], workers, exit_code, read_verdict, options)


def replay(instances, logs, workers=4):
    """The replies of instances that are executed in this order, and the store after them."""
    return ask("replay", [list_of(instances), *logs], workers, False, read_said)


def verify(said, logs, workers=4, exit_code=False):
    """What is wrong with what a replica says, a path, its bytes, a `Said` or a `Report`, as the
    rows of the answer: none if all is right. With `exit_code` a row is a finding."""
    said = Said(said.replies, said.store) if isinstance(said, Report) else said
    text = said.text if isinstance(said, Said) else said
    return ask("verify", [text, *logs], workers, exit_code, read_wrong)


def linear(history, logs, workers=4, skew=0, exit_code=False):
    """What is found of a history, a path, its bytes or calls, as `Linear`: whether the clients saw
    one copy. `skew` is added to each time of an answer. With `exit_code` a call that is found is a
    finding."""
    is_text = isinstance(history, (str, bytes, os.PathLike))
    text = history if is_text else b"".join(call.text for call in history)
    options = ["--skew", str(skew)]
    return ask("linear", [text, *logs], workers, exit_code, read_linear, options)


def compare(logs, workers=4, exit_code=False):
    """What the logs say against each other, as the rows of the answer. With `exit_code` a row
    `bad`, `differs` or `lacks` is a finding."""
    return ask("compare", logs, workers, exit_code, read_rows)


def why(one, logs, workers=4):
    """Why an instance is executed where it is, or why it is not, as the rows of the answer."""
    return ask("why", logs, workers, False, read_rows, subject=name_of(one))


def path(one, other, logs, workers=4):
    """The instances of a shortest path of dependencies, or None."""
    options = ["--reaches", name_of(other)]
    return ask("why", logs, workers, False, read_path, options, name_of(one))


def trace(key, logs, workers=4, reads=False):
    """The executed commands that write a key, or read it too, as the rows of the answer."""
    options = ["--reads"] if reads else []
    return ask("trace", logs, workers, False, read_rows, options, key)


class Follower:
    """`epx follow`, kept open: each `commit` hands in lines as one batch.

    It goes on from `state`, a path, its bytes or a `Report`. `close` saves a state at the path
    `save`. A `with` block closes it, or kills it where an exception ends the block. Several threads
    may commit, each call a batch of its own.

    `came` says how many instances of the last batch did not wait before, and `waiting` how many
    wait after it. After `close`, `waiting_list` has what waits, and `store` the store."""

    def __init__(self, state=None, save=None, workers=4):
        self.came = self.waiting = self._lines = 0
        self.waiting_list = self.store = None
        self._lock, self._is_open = threading.Lock(), True
        words, pipe = [PROGRAM, "follow", "--workers", str(workers)], subprocess.PIPE
        with contextlib.ExitStack() as stack:
            # standard input has the lines, so `-` is a file of this name
            if state is not None:
                text = state.text if isinstance(state, Report) else state
                words += ["--state", os.path.join(".", path_of(text, stack))]
            if save is not None:
                words += ["--save", os.path.join(".", save)]
            # a pipe has room for the one line of a fault
            self._process = subprocess.Popen([*words, "-"], stdin=pipe, stdout=pipe, stderr=pipe)
            self.commit([])  # is answered once the state is read

    def commit(self, lines):
        """The replies of a batch, in the order of execution.

        `lines` is a text, or texts, of one line or more, as `str` or `bytes`; a line may also be a
        dict of its members. Blank lines are passed over. An instance that waits has its reply in
        the batch that brings what it waits for. After a `Fault` the follower is closed."""
        batch = lines_of(lines)
        with self._turn():
            with contextlib.suppress(BrokenPipeError):  # it has ended, and its fault says why
                self._process.stdin.write(b"".join(line + b"\n" for line in [*batch, b""]))
                self._process.stdin.flush()
            _, self.came, _, executed, _, self.waiting = self._read_row(batch)
            replies = [reply_of(*self._read_row(batch)[1:]) for _ in range(executed)]
            self._lines += len(batch) + 1
            return replies

    async def commit_async(self, lines):
        """As `commit`, in a thread of its own. A call that is cancelled is committed all the
        same."""
        import asyncio  # here, since it takes longer than all else that the module imports

        return await asyncio.to_thread(self.commit, lines)

    def close(self):
        """Ends the input, waits until the state is saved, and keeps what waits and the store."""
        if not self._is_open:
            return
        with self._turn():
            self._process.stdin.close()
            text = self._process.stdout.read()
            if self._process.wait():
                raise self._fault()
            found = read_rows(text)
            self.waiting_list = [waiting_of(*row[1:]) for row in found if row[0] == "waiting"]
            self.store = {row[1]: row[2] for row in found if row[0] == "store"}
            self._end()

    def kill(self):
        """Ends the program at once. No state is saved."""
        self._process.kill()
        with self._lock:
            self._end()

    def __enter__(self):
        return self

    def __exit__(self, kind, *_):
        if kind is None:
            self.close()
        else:
            self.kill()

    @contextlib.contextmanager
    def _turn(self):
        """Lets one call at a time use the pipes. An exception ends the program, since what was
        written and read by then is not known."""
        with self._lock:
            if not self._is_open:
                raise ValueError("the follower is closed")
            try:
                yield
            except BaseException:
                self._end()
                raise

    def _read_row(self, batch):
        """The next row that the program writes about a batch."""
        line = self._process.stdout.readline()
        if not line.endswith(b"\n"):
            raise self._fault(batch)
        return json.loads(line)

    def _fault(self, batch=None):
        """The fault with which the program ends. The last line that it names is the bad one."""
        status, text = self._process.wait(), self._process.stderr.read().decode().strip()
        lines = re.findall(r"log 0 line (\d+)", text)
        index = int(lines[-1]) - 1 - self._lines if lines else None
        return Fault(text or f"epx follow ended with status {status}", status, batch, index)

    def _end(self):
        """Ends the program, if it runs, and closes its pipes."""
        self._is_open = False
        self._process.kill()
        self._process.wait()
        for pipe in (self._process.stdin, self._process.stdout, self._process.stderr):
            with contextlib.suppress(BrokenPipeError):
                pipe.close()


def list_of(instances):
    """The text of a list of instances."""
    return "".join(f"[{one.replica},{one.number}]\n" for one in instances).encode()


def lines_of(lines):
    """The lines of a batch as bytes, without line feeds and blank ones."""
    texts = [lines] if isinstance(lines, (str, bytes, dict)) else lines
    texts = (json.dumps(text) if isinstance(text, dict) else text for text in texts)
    texts = (text.encode() if isinstance(text, str) else text for text in texts)
    return [line for text in texts for line in text.split(b"\n") if line.strip(b" \t\r")]


def name_of(one):
    """An instance as words of the command line name it."""
    return f"{one.replica}.{one.number}"


def read_rows(text):
    """The rows of an answer."""
    return [tuple(json.loads(line)) for line in text.splitlines()]


def read_order(text):
    """The rows `order` of an answer."""
    rows = read_rows(text)
    return [Ordered(Id(*row[1:3]), row[3], Id(*row[4:])) for row in rows if row[0] == "order"]


def read_levels(text):
    """The rows `level` of an answer."""
    return [Level(Id(*row[1:3]), row[3]) for row in read_rows(text) if row[0] == "level"]


def read_blockers(text):
    """The missing instances of an answer, and the count of its last row."""
    *rows, last = read_rows(text)
    return Blockers([Blocker(Id(*row[1:3]), *row[3:]) for row in rows], last[1])


def read_pair(text):
    """The two instances of an audit, or None."""
    row = json.loads(text)
    return None if row == ["covered"] else (Id(*row[1:3]), Id(*row[3:]))


def read_pairs(text):
    """The rows `uncovered` of an audit of all pairs."""
    rows = [row for row in read_rows(text) if row != ("covered",)]
    return [Uncovered(Id(*row[1:3]), Id(*row[3:5]), row[5]) for row in rows]


def read_verdict(text):
    """What a check found, or None."""
    row = json.loads(text)
    return None if row == ["lawful"] else tuple(row)


def read_wrong(text):
    """The rows of what is wrong with what a replica says."""
    return [row for row in read_rows(text) if row != ("lawful",)]


def read_linear(text):
    """What is found of a history."""
    found = Linear([], [], [], [row for row in read_rows(text) if row != ("linear",)])
    for kind, *row in found.findings:
        if kind == "late":
            found.late.append((Id(*row[:2]), Id(*row[2:])))
        else:
            (found.replies if kind == "reply" else found.lost).append(Id(*row))
    return found


def read_said(text):
    """What a replay prints."""
    found = Said([], {})
    for kind, *row in map(json.loads, text.splitlines()):
        if kind == "reply":
            found.replies.append(reply_of(*row))
        else:
            found.store[row[0]] = row[1]
    return found


def read_path(text):
    """The instances of a path, or None."""
    row = json.loads(text)
    return None if row == ["none"] else [Id(*pair) for pair in row[1:]]


def reply_of(replica, number, how, rest):
    """The reply of a row."""
    values, place = (tuple(rest), None) if how == "ok" else ((), rest)
    return Reply(Id(replica, number), values, place)


def outcome_of(reply):
    """The end of the row of a reply."""
    if reply.aborted_at is None:
        return "ok", reply.values
    return "abort", reply.aborted_at


def waiting_of(replica, number, *missing):
    """The instance that waits of a row."""
    return Waiting(Id(replica, number), Id(*missing))


def read_report(text):
    """A report from its text."""
    rows = [json.loads(line) for line in text.splitlines()]
    found = Report(rows[0][5], [], [], [], {}, text)
    for kind, *row in rows[1:]:
        if kind == "done":
            found.done.append(Id(*row))
        elif kind == "reply":
            found.replies.append(reply_of(*row))
        elif kind == "waiting":
            found.waiting.append(waiting_of(*row))
        else:
            found.store[row[0]] = row[1]
    return found


def ask(command, texts, workers, exit_code, read, options=(), subject=None):
    """What a subcommand answers about texts, the base or the list first, as `read` reads it."""
    options = [*options, "--exit-code"] if exit_code else options
    with contextlib.ExitStack() as stack:
        paths = [path_of(text, stack) for text in texts]
        paths = paths if subject is None else [subject, *paths]
        words = [PROGRAM, command, *options, "--workers", str(workers), "--", *paths]
        ended = subprocess.run(words, capture_output=True, check=False)
    if ended.returncode not in (0, FINDS):
        raise Fault(ended.stderr.decode().strip(), ended.returncode)
    answer = read(ended.stdout)
    if ended.returncode == FINDS:
        raise Finding(f"epx {command} finds something", answer)
    return answer


def path_of(text, stack):
    """A path, or that of a file of these bytes, which lasts as long as the stack."""
    if not isinstance(text, bytes):
        return str(text)
    file = stack.enter_context(tempfile.NamedTemporaryFile())
    file.write(text)
    file.flush()
    return file.name
