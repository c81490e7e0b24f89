"""Runs the lines of Go, Java, Node and Python of docs/EMBEDDING.md, with and without `epx` where
they look for it.

    tools/docs embedding        the exit status is 1 where something is wrong

It installs the program and the module into a temporary folder by tools/install, so the program
must be built. Go and Python run over two good logs, over a bad one, and where there is no `epx`. A
follower in each language hands in two batches, the second from a saved state, a batch that no pipe
has room for, and the same with a bad line, and starts from a state that is not there, and where
there is no `epx`. Those in Go, Java and Node also run a program that is killed in the last line of
its answer. An error must end with another status than 0 and a line that says why. A language that
is not installed is skipped. The last line says what was run and what was skipped.
"""

import json
import os
import pathlib
import re
import shutil
import subprocess
import sys
import tempfile

from command_line import PROGRAM, TOP, Words, built

PAGE = TOP / "docs/EMBEDDING.md"
LOGS = [TOP / f"examples/replicas/{number}.jsonl" for number in (0, 1)]
BAD = b'{"r":9\n'
BATCHES = (TOP / "examples/arriving.jsonl").read_text().split("\n\n")
# Enough lines that a pipe has no room for them, each after the one before it.
MANY = [
    f'{{"r":9,"i":{number},"seq":{number},"deps":[[9,{max(number - 1, 0)}]],'
    '"ops":[["add","many",1],["get","many"]]}\n'
    for number in range(20_000)
]

# A program that is killed before its answer, of one reply, is written to the end.
KILLED = """#!/bin/sh
read line
printf '%s\\n%s' '["came",1,"executed",1,"waiting",0]' '["reply",0,0,"ok",[7]'
kill -9 $$
"""

# The program about the lines of Go: their log is what standard input has.
GO = """package main

import ("bytes"; "encoding/json"; "fmt"; "io"; "os"; "os/exec")

func body(log []byte) error {
%s
    return nil
}

func main() {
    log, err := io.ReadAll(os.Stdin)
    if err == nil { err = body(log) }
    if err != nil { fmt.Fprintln(os.Stderr, err); os.Exit(1) }
}
"""

# The programs about the followers: they hand in the batches of standard input, which have form
# feeds between them, and print the replies and the rest once all is well.
GO_FOLLOWER = """package main

import ("bufio"; "errors"; "fmt"; "io"; "os"; "os/exec"; "strings")

%s

func body() (all []string, err error) {
    text, err := io.ReadAll(os.Stdin)
    if err != nil { return nil, err }
    f, err := Follow(exec.Command("epx", append([]string{"follow"}, os.Args[1:]...)...))
    if err != nil { return nil, err }
    for _, batch := range strings.Split(string(text), "\\f") {
        replies, err := f.Commit(batch)
        if err != nil { return nil, err }
        all = append(all, replies...)
    }
    rest, err := f.Close()
    return append(all, string(rest)), err
}

func main() {
    all, err := body()
    if err != nil { fmt.Fprintln(os.Stderr, err); os.Exit(1) }
    fmt.Print(strings.Join(all, ""))
}
"""
JAVA_FOLLOWER = """%s

class Main {
    public static void main(String[] words) throws Exception {
        List<String> all = new ArrayList<>(List.of("epx", "follow"));
        all.addAll(List.of(words));
        Follower follower = new Follower(all);
        List<String> lines = new ArrayList<>();
        for (String batch : new String(System.in.readAllBytes(), UTF_8).split("\\f")) {
            lines.addAll(follower.commit(batch));
        }
        lines.addAll(follower.close());
        System.out.print(String.join("\\n", lines) + "\\n");
    }
}
"""
NODE_FOLLOWER = """%s

async function main() {
    const follower = new Follower(...process.argv.slice(2));
    const batches = require("node:fs").readFileSync(0, "utf8").split("\\f");
    const replies = await Promise.all(batches.map((batch) => follower.commit(batch)));
    process.stdout.write([...replies.flat(), ...(await follower.close()), ""].join("\\n"));
}

main().catch((error) => { console.error(error.message); process.exitCode = 1; });
"""


def lines_of(heading, begin):
    """The indented lines of a section of the page from the first that begins so, and no
    placeholder."""
    section = re.search(rf"^## {heading}\n(.*?)(?=^## |\Z)", PAGE.read_text(), re.M | re.S)[1]
    lines = [line for line in section.split("\n") if line.startswith("    ") or not line]
    text = "\n".join(line[4:] for line in lines)
    return text[text.index(begin) :]


def rows_of(program, logs):
    """The rows of the report of logs."""
    words = [program, "run", *logs]
    text = subprocess.run(words, capture_output=True, check=True).stdout
    return [json.loads(line) for line in text.splitlines()]


def as_go(value):
    """A value as Go prints it."""
    if isinstance(value, list):
        return f"[{' '.join(map(as_go, value))}]"
    return "<nil>" if value is None else str(value)


class Room:
    """A folder with logs, the installed program and module, and how many runs were right."""

    def __init__(self, folder):
        self.folder, self.right, self.wrong = folder, 0, 0
        subprocess.run([TOP / "tools/install", folder], stdout=subprocess.DEVNULL, check=True)
        self.empty = folder / "empty"
        self.empty.mkdir()
        self.killed = folder / "killed"
        self.killed.mkdir()
        (self.killed / "epx").write_text(KILLED)
        (self.killed / "epx").chmod(0o755)
        self.put_logs()

    def put_logs(self, first=None):
        """Puts the logs under the names that the page has, the first one of these bytes."""
        for log in LOGS:
            shutil.copy(log, self.folder)
        if first:
            (self.folder / LOGS[0].name).write_bytes(first)

    def expect(self, name, words, path, wanted, given=b""):
        """Runs words with this PATH. `wanted` is what they print, or the error to find."""
        places = {"PATH": str(path), "PYTHONPATH": str(self.folder / "share/epx")}
        env = {"HOME": os.environ.get("HOME", "/"), "PYTHONDONTWRITEBYTECODE": "1", **places}
        ended = subprocess.run(
            words, cwd=self.folder, env=env, input=given, capture_output=True, check=False
        )
        out, err = ended.stdout.decode(), ended.stderr.decode()
        if isinstance(wanted, list):
            is_right = (ended.returncode, out.splitlines()) == (0, wanted)
        else:
            is_right = ended.returncode not in (0, None) and wanted in err and not out
        print(f"{name}: {'as it should be' if is_right else 'WRONG'}")
        if not is_right:
            print(f"status {ended.returncode}, printed\n{out}{err}")
        self.right, self.wrong = self.right + is_right, self.wrong + (not is_right)


def run_go(room):
    """Builds the lines of Go and runs them."""
    (room.folder / "main.go").write_text(GO % lines_of("Go", "cmd := "))
    subprocess.run(["go", "build", "-o", "main", "main.go"], cwd=room.folder, check=True)
    rows = rows_of(room.folder / "bin/epx", LOGS)
    replies = [f"{row[1]} {row[2]} {as_go(row[3:])}" for row in rows if row[0] == "reply"]
    words, log, path = [room.folder / "main"], LOGS[1].read_bytes(), room.folder / "bin"
    room.expect("Go, two logs", words, path, replies, log)
    room.expect("Go, a bad log", words, path, "epx: fault 4: log 1 line 1: NotJson", BAD)
    room.expect("Go, no epx", words, room.empty, "executable file not found", log)


def go_follower(room):
    """Builds the follower in Go. Returns the words that run it."""
    (room.folder / "follower.go").write_text(GO_FOLLOWER % lines_of("A follower in Go", "type "))
    words = ["go", "build", "-o", "follower", "follower.go"]
    subprocess.run(words, cwd=room.folder, check=True)
    return [room.folder / "follower"]


def java_follower(room):
    """Builds the follower in Java. Returns the words that run it."""
    (room.folder / "Main.java").write_text(JAVA_FOLLOWER % lines_of("A follower in Java", "import"))
    subprocess.run(["javac", "Main.java"], cwd=room.folder, check=True)
    return [shutil.which("java"), "-cp", room.folder, "Main"]


def node_follower(room):
    """Writes the follower in Node. Returns the words that run it."""
    script = room.folder / "follower.js"
    script.write_text(NODE_FOLLOWER % lines_of("A follower in Node", "const"))
    return [shutil.which("node"), script]


# The followers: the commands that must be there, how each is built, and what it says where there is
# no `epx`, and where that is killed.
FOLLOWERS = {
    "Go": (["go"], go_follower, "executable file not found", "signal: killed"),
    "Java": (["javac", "java"], java_follower, 'Cannot run program "epx"', "epx ended with 137"),
    "Node": (["node"], node_follower, "spawn epx ENOENT", "epx ended with SIGKILL"),
}


def followed(program, batches, *words):
    """What the program writes of batches, without the counts."""
    text, call = "\n".join(batches), [program, "follow", *words]
    ended = subprocess.run(call, input=text, capture_output=True, text=True, check=True)
    return [line for line in ended.stdout.splitlines() if not line.startswith('["came"')]


def run_follower(room, language):
    """Builds a follower and runs it in all ways."""
    _, build, no_program, killed = FOLLOWERS[language]
    words, path, state = build(room), room.folder / "bin", room.folder / f"{language}.state"
    first, second = (batch.rstrip() + "\n" for batch in BATCHES)

    def expect(name, more, wanted, *batches, path=path):
        given = "\f".join(batches).encode()
        room.expect(f"{language} follower, {name}", [*words, *more], path, wanted, given)

    program = path / "epx"
    expect("two batches", [], followed(program, [first, second]), first, second)
    expect("a state to save", ["--save", state], followed(program, [first]), first)
    start = ["--state", state]
    expect("a saved state", start, followed(program, [second], *start), second)
    expect("many lines", [], followed(program, ["".join(MANY)]), "".join(MANY))
    bad = "".join([*MANY[:7], BAD.decode(), *MANY[7:]])
    expect("a bad line", [], "epx: fault 4: log 0 line 11: NotJson", first, bad)
    expect("no state", ["--state", room.folder / "none"], "epx: fault 7: log 1", first)
    expect("no epx", [], no_program, first, path=room.empty)
    expect("a killed epx", [], killed, first, path=room.killed)


def run_python_follower(room):
    """Runs the follower in Python, from nothing, from its saved state, and over a bad log."""
    script = room.folder / "follower.py"
    script.write_text(lines_of("A follower in Python", "import os"))
    words, program = [sys.executable, script], room.folder / "bin/epx"
    batches = [log.read_text() for log in LOGS]
    for name, start in (("two batches", []), ("a saved state", ["--state", "replica.state"])):
        wanted = python_follower_lines(program, batches, start, room.folder)
        room.expect(f"Python follower, {name}", words, room.empty, wanted)
    room.put_logs(first=BAD)
    (room.folder / "replica.state").unlink()
    wanted = ["epx: fault 4: log 0 line 2: NotJson", str(BAD.strip())]
    room.expect("Python follower, a bad line", words, room.empty, wanted)
    room.put_logs()


def python_follower_lines(program, batches, start, folder):
    """What the lines of the follower in Python print about batches."""
    call, text = [program, "follow", *start], "\n".join(batches)
    ended = subprocess.run(call, cwd=folder, input=text, capture_output=True, text=True, check=True)
    lines, waits, store = [], [], {}
    for kind, *row in map(json.loads, ended.stdout.splitlines()):
        if kind == "came":
            lines, waits = lines + waits, [f"{row[4]} wait"]
        elif kind == "reply":
            lines.append(python_reply(row))
        elif kind == "store":
            store[row[0]] = row[1]
    return [*lines, *waits, str(store)]


def run_python(room):
    """Runs the lines of Python, with the installed program, with that of the path, and none."""
    script = room.folder / "main.py"
    script.write_text(lines_of("Python", "import epx"))
    third = room.folder / "third.jsonl"
    third.write_text(re.search(r"b'(\{.*?\})'", script.read_text())[1])
    wanted = python_lines(rows_of(room.folder / "bin/epx", [*LOGS, third]))
    words = [sys.executable, script]
    room.expect("Python, two logs", words, room.empty, wanted)
    room.put_logs(first=BAD)
    room.expect("Python, a bad log", words, room.empty, "epx: fault 4: log 0 line 1: NotJson")
    room.put_logs()
    moved = room.folder / "path"
    moved.mkdir()
    (room.folder / "bin/epx").rename(moved / "epx")
    room.expect("Python, epx of the path", words, moved, wanted)
    room.expect("Python, no epx", words, room.empty, "No such file or directory: 'epx'")
    (moved / "epx").rename(room.folder / "bin/epx")


def python_reply(row):
    """What the lines of Python print about a reply."""
    values, place = (tuple(row[3]), None) if row[2] == "ok" else ((), row[3])
    return f"{python_id(*row[:2])} {values} {place}"


def python_id(replica, number):
    """An instance as Python prints it."""
    return f"Id(replica={replica}, number={number})"


def python_lines(rows):
    """What the lines of Python print about a report: its replies, what waits, and its store."""
    lines = []
    for kind, *row in rows[1:]:
        if kind == "reply":
            lines.append(python_reply(row))
        elif kind == "waiting":
            lines.append(f"{python_id(*row[:2])} waits for {python_id(*row[2:])}")
    lines.append(str({row[1]: row[2] for row in rows if row[0] == "store"}))
    waits = sum(row[0] == "waiting" for row in rows)
    return lines + ([f"{waits} wait"] if waits else [])


def main():
    Words(__doc__).parse_args()
    built(PROGRAM)
    lacks = {name: [it for it in commands if not shutil.which(it)]
             for name, (commands, *_) in FOLLOWERS.items()}  # fmt: skip
    with tempfile.TemporaryDirectory(prefix="epx-embedding-") as name:
        room = Room(pathlib.Path(name))
        if not lacks["Go"]:
            run_go(room)
        for language in FOLLOWERS:
            if not lacks[language]:
                run_follower(room, language)
        run_python(room)
        run_python_follower(room)
    ran = ", ".join(name for name in FOLLOWERS if not lacks[name])
    ran = f"{ran} and Python" if ran else "Python"
    skipped = [f"{name} was skipped, since there is no command {lacks[name][0]}"
               for name in FOLLOWERS if lacks[name]]  # fmt: skip
    end = f"{room.wrong} wrong; {'; '.join(skipped) or 'nothing was skipped'}"
    print(f"tools/docs embedding: {ran}: {room.right} runs as they should be, {end}")
    return 1 if room.wrong else 0

