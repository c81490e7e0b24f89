"""What contrib/texts must refuse: words, lines of logs, and answers. A module, and no tool
itself."""

import functools
import json
import subprocess

import trials
from command_line import TOP

GOOD = {"r": 0, "i": 0, "seq": 1, "deps": [[1, 3]], "ops": [["get", "a"]]}
LONG = [["put", "a", "x"]] * 65


def nested(begin, depth, end):
    """A line with a value that is nested so deep."""
    value = begin * depth + b"0" + end * depth
    return b'{"r":0,"i":0,"seq":0,"deps":[],"ops":[["put","a",' + value + b"]]}"


# Lines that must be refused, and what is said of each.
BAD_LINES = (
    (b"\xff", "no UTF-8 at byte 1"),
    (b"{", "no JSON: "),
    (b'{"r":NaN}', "no JSON: NaN is no JSON"),
    (b'{"r":1e999}', "no JSON: the number 1e999 is beyond floats of 64 bits"),
    (b"[" * 100_000, "no JSON: "),
    (b"[]", "no JSON object"),
    ({"r": 256}, "r is no whole number below 256"),
    ({"r": 1.0}, "r is no whole number below 256"),
    (b'{"r":-0,"i":0,"seq":0,"deps":[],"ops":[]}', "r is no whole number below 256"),
    ({"i": -1}, "i is no whole number below 18446744073709551616"),
    ({"i": 2**64}, "i is no whole number below 18446744073709551616"),
    ({"seq": True}, "seq is no whole number below 18446744073709551616"),
    ({"status": None}, "status is none of committed, "),
    ({"deps": None}, "deps is no array of pairs [r,i]"),
    ({"deps": [3, None]}, "deps is no array of pairs [r,i]"),
    ({"deps": [[0, 1, 2]]}, "deps is no array of pairs [r,i]"),
    ({"deps": [[0, 1]] * 257}, "deps has 257 pairs, and epx reads at most 256"),
    ({"ops": None}, "ops is no array"),
    ({"ops": [["get", "a"], "get"]}, "ops has no operation at place 1"),
    ({"ops": [["swap", "a", "b"]]}, "ops has no operation at place 0"),
    ({"ops": [[["get"], "a"]]}, "ops has no operation at place 0"),
    ({"ops": [["copy", "a"]]}, "ops has no operation at place 0"),
    ({"ops": [["get", ""]]}, "ops has no operation at place 0"),
    ({"ops": [["get", 7]]}, "ops has no operation at place 0"),
    ({"ops": [["get", "\ud800"]]}, "ops has no operation at place 0"),
    ({"ops": [["put", "a", ["\ud800"]]]}, "ops has no operation at place 0: a text has half"),
    (nested(b"[", 128, b"]"), "ops has no operation at place 0: it is nested over 127"),
    (nested(b'{"x":', 500, b"}"), "ops has no operation at place 0: it is nested over 127"),
    ({"ops": [["put", "a", None]]}, "ops has no operation at place 0: null is no value; del"),
    ({"ops": [["get", "a"], ["add", "a", 1]]}, 'ops has "add" at place 1: it counts, and values'),
    ({"ops": [["floor", "a", 1]]}, 'ops has "floor" at place 0: it counts, and values'),
    ({"ops": [*LONG, ["is", "a", "x"]]}, 'ops has "is" at place 65 of 66 operations: in a batch'),
    ({"ops": LONG, "i": 2**63}, "a number is 9223372036854775808 or more, and there are 2 parts"),
    ({"ops": LONG, "deps": [[0, 2**64 - 1]]}, "a number is 9223372036854775808 or more"),
    ({"ops": LONG, "deps": [[1, at] for at in range(256)]}, "deps has 256 pairs, and in parts it"),
)
NONE, ONE, TWO = (f'["executed",{count},"waiting",0,"components",{min(count, 1)}]\n'
                  for count in range(3))  # fmt: skip
# Bases that must be refused, and what is said of each.
BAD_BASES = (
    ("", "base line 1: after 0 replies and 0 that wait the base ends"),
    (ONE, "base line 2: after 0 replies and 0 that wait the base ends"),
    ("\n", "base line 1: no JSON"),
    (NONE + "\n", "base line 2: no JSON"),
    (NONE + NONE, "base line 2: not where a line of a base may be"),
    ('["done",0,0]\n', "base line 1: not where a line of a base may be"),
    (NONE + '["store","a","x"]\n["done",0,0]\n', "base line 3: not where a line of a base may be"),
    (NONE + '["store","b","x"]\n["store","a","x"]\n', "base line 3: not where a line of a base"),
    (NONE + '["store","a",null]\n', "base line 2: no line of a base"),
    (NONE + '["store","a",["\\ud800"]]\n', "base line 2: no line of a base: a text has half"),
    (NONE + '["done",0]\n', "base line 2: no line of a base"),
    (ONE + '["reply",0,0,"no",[]]\n', "base line 2: no line of a base"),
    (NONE + f'["done",0,{2**64}]\n', "base line 2: no line of a base"),
    (NONE + f'["done",0,{2**63}]\n', "base line 2: a number is 6148914691236517205 or more"),
)  # fmt: skip
# Answers that must be refused, over logs in two parts or in one, and what is said of each.
BAD_ANSWERS = (
    (1, "epx: fault 1: out of memory\n", " line 1: is a fault, and no answer"),
    (1, "", ": is empty, and no answer but a trace may be: say --trace where it is one"),
    (1, "no answer\n", " line 1: is no line of an answer"),
    (1, '["none"]\n\n', " line 2: is no line of an answer"),
    (1, '["known",1,2]\n', " line 1: is no line of an answer"),
    (1, '["covered",1]\n', " line 1: is no line of an answer"),
    (1, '["covered"]\n["covered"]\n', " line 2: is no line of an answer"),
    (1, '["store","a",0]\n', " line 1: is no line of an answer"),
    (1, '["read",0,0,2]\n', " line 1: has the number 2, and no value has it"),
    (1, '["read",256,0,0]\n', " line 1: is no line of an answer"),
    (1, '["read",0,0,-1]\n', " line 1: is no line of an answer"),
    (1, '["read",0,0,0]\n["read",0,0,0]\n', " line 2: is no line of an answer"),
    (1, '["log",0,1,0]\n["lacks",0,1,5,4]\n', " line 2: is of instances that have not all"),
    (1, '["log",0,1,1]\n["bad",0,1,"Sequel"]\n', " line 2: is no line of an answer"),
    (1, '["log",0,1,0]\n["differs",0,1,["r"],[[[0,1]]]]\n', " line 2: is no line of an answer"),
    (1, '["ready",0,1,0,0,0,1]\n["needs",0,1,1]\n', " line 2: is no line of an answer"),
    (1, '["missing",0,1,1]\n', " line 1: is no line of an answer"),
    (1, '["blocks",0,1,1,1]\n', " line 1: is no line `several`, with which the answer ends"),
    (1, '["several",0]\n["several",0]\n', " line 1: is no line of an answer"),
    (1, "digraph dependencies {\n", " line 1: is no whole picture"),
    (1, "digraph dependencies {\n  node [shape=box];\n  other\n}\n", " line 3: is no line of a"),
    (1, '["executed",0,"waiting",1,"components",0]\n', " line 1: counts 0 and 1, and 0 and 0"),
    (1, '["executed",0,"waits",0,"components",0]\n', " line 1: is no line of an answer"),
    (1, ONE + '["reply",0,0,"ok",[9]]\n', " line 2: has the number 9, and no value has it"),
    (1, ONE + '["reply",0,0,"no",[0]]\n', " line 2: is no line of an answer"),
    (1, NONE + '["store","long:1",0]\n', " line 2: has the key long:1, and no key has it"),
    (1, NONE + '["store","a",0]\n["done",0,0]\n', " line 3: is no line of an answer"),
    (1, ONE + '["level",0,0,0]\n["store","a",0]\n', " line 3: is no line of an answer"),
    (2, ONE + '["order",0,0,0,0,0]\n', " line 2: is of 0.0, of which 2 parts do not follow"),
    (2, TWO + '["order",0,1,0,0,0]\n["order",0,0,0,0,0]\n',
     " line 2: is of 0.0, of which 2 parts do not follow each other"),
    (2, TWO + '["order",0,0,0,0,0]\n["order",0,1,1,0,0]\n',
     " line 2: says of one part what others do not"),
    (2, TWO + '["level",9,0,0]\n["level",9,1,0]\n', " line 2: is of 9.0, which is in no log"),
    (2, '["uncovered",0,0,1,2]\n', " line 1: has 0.0 and 1.1, which conflict and of which neither"),
    (2, '["path",[0,0],[0,1],[0,0]]\n', " line 1: leads from 0.0 to itself through its own parts"),
    (2, '["path",[0,1],[1,0]]\n', " line 1: is about a part of 0.0: ask for its first part, 0.0"),
    (2, '["ready",0,1,0,0,0,0]\n', " line 1: is about a part of 0.0: ask for its first part, 0.0"),
    (2, '["blocks",0,1,0,1]\n["several",0]\n', " line 1: is about a part of 0.0: ask for its"),
    (2, '["blocks",0,0,0,1]\n["several",1]\n', " line 2: counts 1, and each instance has 2"),
    (2, '["log",0,3,0]\n', " line 1: has 3 lines, and each instance has 2"),
    (2, '["log",0,2,1]\n["bad",0,1,"Deps"]\n', " line 2: is of a log with bad lines"),
)  # fmt: skip
# With --trace those must be refused that are no trace.
BAD_TRACES = (
    ('["none"]\n', " line 1: is no line of an answer"),
    ("digraph dependencies {\n", " line 1: is no line of an answer"),
    ('["read",0,0,0]\n' + ONE, " line 2: is no line of an answer"),
    ('["read",0,0,9]\n', " line 1: has the number 9, and no value has it"),
)
# With it these are turned back, as an empty one is.
TRACES = ((b"", b""), (b'["read",0,0,0]\n', b'["read",0,0,"x"]\n'))


is_refused = functools.partial(trials.is_refused, "texts")


def is_trace_taken(folder, text, wanted):
    """Whether a trace is turned back, and no word is said of it."""
    ended = subprocess.run([TOP / "contrib/texts", "--back", "one", "--trace"], cwd=folder,
                           input=text, capture_output=True, check=False)  # fmt: skip
    is_right = (ended.returncode, ended.stdout, ended.stderr) == (0, wanted, b"")
    if not is_right:
        print(f"WRONG: the trace {text} ended with {ended}")
    return is_right


def make_files(folder):
    """Files and folders that the words below name."""
    for name in ("a", "b", "full", "bad", "odd"):
        (folder / name).mkdir()
    for name in ("a", "b"):
        (folder / name / "0.jsonl").write_text(json.dumps(GOOD))
    (folder / "a/names.json").write_text(json.dumps(GOOD))
    (folder / "full/other").write_text("")
    (folder / "link").symlink_to("a")
    (folder / "list").write_text("[0,0]\n[0]\n")
    (folder / "long").write_text(json.dumps(GOOD | {"ops": LONG * 2, "deps": []}))
    (folder / "bad/names.json").write_text("{}")
    (folder / "odd/names.json").write_text(
        '{"parts":1,"operations":64,"logs":[],"cut":[],"keys":{},"values":[1,1.0]}'
    )


def cases_of_words():
    """Words that must be refused, each with the status and what is said."""
    odd = "odd/names.json is not as contrib/texts writes it: it has equal"
    yield [], 2, "--out FOLDER is missing"
    yield ["--unknown"], 2, "unrecognized arguments: --unknown"
    for *words, status, why in (
        *trials.WORDS_OF_BOTH,
        ("a/0.jsonl", "--list", "b/0.jsonl", "--out", "out", 2, "a/0.jsonl and b/0.jsonl have one"),
        ("a/0.jsonl", "--out", "link", 2, "link is the folder of a/0.jsonl"),
        ("a/0.jsonl", "--out", "list", 2, "list is no folder"),
        ("a/0.jsonl", "--out", "full", 2, "full has other, which is not written"),
        ("a/names.json", "--out", "out", 2, "names.json is the file of names"),
        ("--back", "one", "a/0.jsonl", "a/0.jsonl", 2, "--back takes one ANSWER"),
        ("--back", "one", "--out", "out", 2, "--out is not for --back"),
        ("--back", "one", "--list", "list", 2, "--list is not for --back"),
        ("--back", "a", "a/0.jsonl", 1, "a/names.json is not as contrib/texts writes it"),
        ("--back", "b", "a/0.jsonl", 1, "b/names.json can not be read: No such file"),
        ("--back", "bad", "a/0.jsonl", 1, "bad/names.json is not as contrib/texts writes it"),
        ("--back", "odd", "a/0.jsonl", 1, odd),
        ("--back", "one", "none", 1, "none can not be read: No such file"),
        ("a/0.jsonl", "c.jsonl", "--out", "out", 1, "c.jsonl can not be read: No such file"),
        ("a/0.jsonl", "b", "--out", "out", 1, "b can not be read: Is a directory"),
        ("a/0.jsonl", "--list", "list", "--out", "out", 1, "list line 2: no instance [r,i]"),
        ("a/0.jsonl", "--out", "list/out", 1, "list/out can not be written: Not a directory"),
        ("--back", "one", "--base", "list", 2, "--base is not for --back"),
        ("--trace", "a/0.jsonl", "--out", "out", 2, "--trace is for --back alone"),
        ("a/0.jsonl", "--base", "b/0.jsonl", "--out", "out", 2, "a/0.jsonl and b/0.jsonl have one"),
        ("a/0.jsonl", "--base", "none", "--out", "out", 1, "none can not be read: No such file"),
    ):
        yield list(words), status, why


def bad_logs():
    """Logs that must be refused, each with what is said of it."""
    good = json.dumps(GOOD).encode()
    for line, why in BAD_LINES:
        text = line if isinstance(line, bytes) else json.dumps(GOOD | line).encode()
        yield b"\n" + good + b"\n" + text + b"\n", f"bad.jsonl line 3: {why}"
    for member in GOOD:
        rest = {name: value for name, value in GOOD.items() if name != member}
        yield json.dumps(rest).encode(), f"bad.jsonl line 1: {member} is missing"


def write_folders(folder):
    """Writes folders in one part and in two, which answers are about."""
    for name, ops in ("one", [["put", "a", "x"], ["put", "b", "y"]]), ("two", LONG):
        (folder / "log").write_text(json.dumps(GOOD | {"ops": ops}))
        words = [TOP / "contrib/texts", "log", "--out", name]
        subprocess.run(words, cwd=folder, check=True, capture_output=True)


def refusals(folder):
    """How many refusals of words, lines and answers are not as they should be, or traces that must
    be taken, and of how many."""
    make_files(folder)
    write_folders(folder)
    cases = [(*case, folder) for case in cases_of_words()]
    for parts, text, why in BAD_ANSWERS:
        name = ("one", "two")[parts - 1]
        cases.append((["--back", name], 1, f"standard input{why}", folder, text.encode()))
    for text, why in BAD_TRACES:
        words = ["--back", "one", "--trace"]
        cases.append((words, 1, f"standard input{why}", folder, text.encode()))
    wrong = sum(not is_refused(*case) for case in cases)
    wrong += sum(not is_trace_taken(folder, *trace) for trace in TRACES)
    for text, why in BAD_BASES:
        (folder / "base").write_text(text)
        words = ["long", "--base", "base", "--out", "out"]
        wrong += not is_refused(words, 1, why, folder)
    for text, why in bad_logs():
        (folder / "bad.jsonl").write_bytes(text)
        wrong += not is_refused(["a/0.jsonl", "bad.jsonl", "--out", "out"], 1, why, folder)
    tried = len(cases) + len(TRACES) + len(BAD_BASES)
    return wrong, tried + sum(1 for _ in bad_logs())
