"""Compiles the lines of Go and Rust on the pages, and compares the lines of logs that they write.

    tools/docs fragments        the exit status is 1 where something is wrong

A language whose compiler is not installed is skipped, and the last line says so.
"""

import json
import pathlib
import re
import shutil
import subprocess
import tempfile

from command_line import TOP, Words, say

# The lines of a language on a page, by the paragraph before them, and the program about them.
GO = """package main

import ("bytes"; "encoding/json"; "fmt"; "os"; "os/exec")

var _, _, _, _ = bytes.NewReader, fmt.Println, os.Stdout, exec.Command

%s

func body(file *os.File, log []byte) error {
%s
    return nil
}

func main() { if err := body(os.Stdout, nil); err != nil { panic(err) } }
"""
# What efficient/epaxos has of an instance, and an instance of it.
GO_REPLICA = """package main

import ("encoding/json"; "fmt"; "os")

type Operation uint8
type Command struct { Op Operation; K, V int64 }
type Instance struct { Cmds []Command; Seq int32; Deps [5]int32 }

var state = struct { PUT, GET Operation }{1, 2}

%s%s

func main() {
    commands := []Command{{state.PUT, 7, 20}, {state.GET, 8, 0}}
    inst := &Instance{commands, 8, [5]int32{11, 7, -1, -1, -1}}
    if err := record(json.NewEncoder(os.Stdout), 2, 9, inst); err != nil { panic(err) }
}
"""
RUST = """use std::io::Write;

fn main() -> std::io::Result<()> {
    let mut file = std::io::stdout();
%s%s
    Ok(())
}
"""
WRITTEN = {
    "r": 2, "i": 9, "seq": 8, "status": "committed",
    "deps": [[0, 11], [1, 7]], "ops": [["put", "alice", 20]],
}  # fmt: skip
RECORDED = {
    "r": 2, "i": 9, "seq": 8, "deps": [11, 7, -1, -1, -1], "ops": [["put", "7", 20], ["get", "8"]],
}  # fmt: skip
FRAGMENTS = [
    ("docs/INPUT.md", "In Go:", GO, WRITTEN),
    ("docs/INPUT.md", "In Rust,", RUST, WRITTEN),
    ("docs/INPUT.md", "Where efficient/epaxos has set", GO_REPLICA, RECORDED),
]


def fragment(page, before):
    """The indented lines of a page after a line that begins so, as one text."""
    text = (TOP / page).read_text()
    text = text[text.index("\n" + before) + 1 :].split("\n\n", 1)[1]
    lines = []
    for line in text.split("\n"):
        if line.strip() and not line.startswith("    "):
            break
        lines.append(line[4:])
    return "\n".join(lines)


def compiled(room, form, lines):
    """A program of these lines, built in a folder, or None where the compiler is not there."""
    if form is not RUST:
        types = "".join(re.findall(r"^type .*?^}\n", lines, re.M | re.S))
        rest = lines.replace(types, "").replace("err :=", "err =", 1) if types else lines
        rest = "    var err error\n" + rest + "    _ = err" if types else rest
        name, words = "main.go", ["go", "build", "-o", "main", "main.go"]
    else:
        types, rest = "", lines
        name, words = "main.rs", ["rustc", "--edition", "2021", "-o", "main", "main.rs"]
    if not shutil.which(words[0]):
        return None
    (room / name).write_text(form % (types, rest))
    subprocess.run(words, cwd=room, check=True)
    return room / "main"


def main():
    Words(__doc__).parse_args()
    right, built = True, 0
    say("compiles the lines of Go and Rust, where their compilers are")
    for page, before, form, wanted in FRAGMENTS:
        with tempfile.TemporaryDirectory() as name:
            program = compiled(pathlib.Path(name), form, fragment(page, before))
            built += program is not None
            print(f"{page}: {before} {'built' if program else 'no compiler'}", flush=True)
            if program and wanted:
                text = subprocess.run([program], capture_output=True, text=True, check=True).stdout
                if json.loads(text) != wanted:
                    print("WRONG: wrote " + text)
                    right = False
    lacks = len(FRAGMENTS) - built
    end = "write what the pages say" if right else "do NOT write what the pages say"
    end += f", {lacks} not built, since their compiler is not there" if lacks else ""
    print(f"tools/docs fragments: {built} fragments {end}")
    return 0 if right else 1
