"""What epx answers about logs, as `tools/page` needs it. A module, and no tool itself."""

import json
import subprocess
import sys

from command_line import stop
from logs import is_blank, is_committed

# One byte more than the longest log, so that epx sees that a log is too long.
MOST_BYTES = 67_108_864 + 1
# The most instances of a page, and how many commands are in one log for `replay`, whatever their
# length: so the logs are no more and no longer than epx reads.
MOST, PART = 50_000, 800


def written_keys(ops):
    """The keys that a command may write, as docs/FORMAT.md has them, each once."""
    places = {"put": 1, "del": 1, "add": 1, "copy": 2}
    return list(dict.fromkeys(op[places[op[0]]] for op in ops if op[0] in places))


class Answers:
    """Asks epx about copies of logs, so that each answer is about the same bytes.

    It has the rows of `run` and `order`; the text of `graph`; the rows of `blockers`, or None where
    the program has no such subcommand; the operations of each instance, by its Id; what each
    executed command wrote; and, of a history, its calls and the rows of `linear`."""

    def __init__(self, program, folder, logs):
        self.program, self.folder, self.names, self.logs = program, folder, {}, logs
        self.copies = [self.copy(log) for log in self.logs]
        self.run = self.rows("run", "--explain", "--", *self.copies)
        if sum(self.run[0][1:4:2]) > MOST:
            stop(f"the logs commit more than {MOST:,} instances, too many for a page", 1)
        self.order = self.rows("order", "--", *self.copies)
        self.graph = self.text("graph", "--", *self.copies)
        self.blockers = self.rows("blockers", "--", *self.copies) if self.has_blockers() else None
        self.history, self.linear, self.calls = None, None, {}
        self.ops = self.read_operations()
        self.writes = self.ask_writes()

    def copy(self, name):
        """The path of a copy. A file that cannot be read is left to epx, which says why."""
        try:
            if name == "-":
                text = sys.stdin.buffer.read(MOST_BYTES)
            else:
                with open(name, "rb") as file:
                    text = file.read(MOST_BYTES)
        except OSError:
            return name
        return self.put(f"copy-{len(self.names)}", text, name)

    def put(self, file, text, name):
        """Writes bytes into the folder. Messages of epx call the file by the name."""
        path = str(self.folder / file)
        try:
            with open(path, "wb") as made:
                made.write(text)
        except OSError as error:
            stop(f"{path} can not be written: {error.strerror}", 1)
        self.names[path] = name
        return path

    def text(self, *words):
        """An answer. A refusal ends the tool as it ended epx."""
        call = [self.program, *words]
        done = subprocess.run(call, stdin=subprocess.DEVNULL, capture_output=True, check=False)
        if done.returncode:
            said = done.stderr.decode(errors="replace")
            for path in sorted(self.names, key=len, reverse=True):
                said = said.replace(path, self.names[path])
            sys.stderr.write(said or f"epx ended with {done.returncode}\n")
            sys.exit(done.returncode if done.returncode > 0 else 128 - done.returncode)
        return done.stdout.decode()

    def rows(self, *words):
        """The lines of an answer, read as JSON. Keys may have other ends of lines, as U+2028."""
        return [json.loads(line) for line in self.text(*words).split("\n")[:-1]]

    def has_blockers(self):
        call = [self.program, "help", "blockers"]
        return subprocess.run(call, capture_output=True, check=False).returncode == 0

    def ask_history(self, history, skew):
        """Reads a history, once epx took it, with the `--skew` of `linear` or None."""
        self.history, copy = history, self.copy(history)
        words = [] if skew is None else [f"--skew={skew}"]
        self.linear = self.rows("linear", "--explain", *words, "--", copy, *self.copies)
        for line in self.lines(copy):
            self.calls[f"{line[1]}.{line[2]}"] = line[3:]

    def lines(self, path):
        """The values of the lines of a file that epx took."""
        with open(path, "rb") as file:
            texts = file.read().split(b"\n")
        return [json.loads(text.decode()) for text in texts if not is_blank(text)]

    def read_operations(self):
        """The operations of each committed instance. All lines of one have the same."""
        ops = {}
        for path in self.copies:
            for line in self.lines(path):
                if is_committed(line):
                    ops[f"{line['r']}.{line['i']}"] = line["ops"]
        return ops

    def ask_writes(self):
        """What each executed command wrote, by its Id: pairs of a key and its value after it.

        One `replay` has a command for each position, and after it one that reads the keys that it
        may write. A command that aborts writes nothing, so nothing is read after it."""
        replies = [row[1:] for row in self.run if row[0] == "reply"]
        reads, texts = [], []
        for at, (replica, number, kind, _) in enumerate(replies):
            ops = self.ops[f"{replica}.{number}"]
            reads.append(written_keys(ops) if kind == "ok" else [])
            pair = [(2 * at, ops), (2 * at + 1, [["get", key] for key in reads[at]])]
            texts += [self.line_of(*command) for command in pair]
        answer = self.replay(texts)
        said = [row[3:] for row in answer if row[0] == "reply"]
        if said[::2] != [row[2:] for row in replies] or not self.is_last_store(answer):
            stop("replay and run have other replies or another store: this is a fault of epx", 1)
        return {f"{row[0]}.{row[1]}": list(zip(keys, reply[1]))
                for row, keys, reply in zip(replies, reads, said[1::2])}  # fmt: skip

    def line_of(self, number, ops):
        line = {"r": 0, "i": number, "seq": 0, "deps": [], "ops": ops}
        return json.dumps(line, ensure_ascii=False, separators=(",", ":")) + "\n"

    def replay(self, texts):
        """Replays lines of logs in their order."""
        parts = [texts[begin : begin + 2 * PART] for begin in range(0, len(texts), 2 * PART)]
        paths = [self.put(f"part-{at}", "".join(part).encode(), "the commands")
                 for at, part in enumerate(parts)]  # fmt: skip
        listed = "".join(f"[0,{number}]\n" for number in range(len(texts))).encode()
        return self.rows("replay", "--", self.put("list", listed, "the list"), *paths)

    def is_last_store(self, answer):
        """Whether an answer ends with the store of the report."""
        stores = [[row for row in rows if row[0] == "store"] for rows in (answer, self.run)]
        return stores[0] == stores[1]
