"""The test of contrib/expand: what must be refused. `tools/fuzz expand` tries what is written.

A module, and no tool itself: `tools/test expand` runs it."""

import json
import pathlib
import subprocess
import tempfile

import trials
from command_line import TOP
from pairs import KINDS, All

ENCODER = json.JSONEncoder(separators=(",", ":"))
WORDS = {kind: f"--{word}" for word, kind in KINDS.items()}
# How the two lines begin that ask for a meaning.
WHICH = "--conflicting or --all is missing: does your replica look for conflicts"


def expand(paths, folder, kind, more=()):
    """Expands logs as a user does."""
    words = [TOP / "contrib/expand", WORDS[kind], *paths, "--out", folder, *more]
    subprocess.run(words, check=True, capture_output=True)


def write_logs(folder, logs):
    """Writes logs of these lines, and returns their paths."""
    return trials.write_logs(folder, [map(ENCODER.encode, lines) for lines in logs])


GOOD = {"r": 0, "i": 0, "seq": 1, "deps": [None, 3], "ops": [["get", "a"]]}
# Lines that must be refused, and what is said of each.
BAD_LINES = (
    (b"\xff", "no UTF-8 at byte 1"),
    (b"{", "no JSON: "),
    (b'{"r":NaN}', "no JSON: NaN is no JSON"),
    (b"[" * 100_000, "no JSON: "),
    (b"[]", "no JSON object"),
    ({"r": None}, "r is no whole number below 256"),
    ({"i": -1}, "i is no whole number below 18446744073709551616"),
    ({"seq": True}, "seq is no whole number below 18446744073709551616"),
    ({"status": ["committed"]}, "status is none of committed, "),
    ({"deps": None}, "deps is no array of a number, or null, for each replica"),
    ({"deps": [[0, 1]]}, "deps is no array of a number, or null, for each replica"),
    ({"deps": {"0": 1}}, "deps is no array of a number, or null, for each replica"),
    ({"ops": None}, "ops is no array"),
    ({"ops": [["get", "a"]] * 65}, "ops has 65 operations, and epx reads at most 64"),
    ({"ops": [["get", "a"], "get"]}, "ops has no operation at place 1"),
    ({"ops": [["swap", "a", "b"]]}, "ops has no operation at place 0"),
    ({"ops": [["copy", "a"]]}, "ops has no operation at place 0"),
    ({"ops": [["put", "a", 2**63]]}, "ops has no operation at place 0"),
)


def bad_logs():
    """Logs that must be refused, each with what is said of it, and the meaning of its numbers."""
    good = json.dumps(GOOD).encode()
    for line, why in BAD_LINES:
        text = line if isinstance(line, bytes) else json.dumps(GOOD | line).encode()
        for word in KINDS:
            yield b"\n" + good + b"\n" + text + b"\n", f"bad.jsonl line 3: {why}", f"--{word}"
    for member in GOOD:
        rest = {name: value for name, value in GOOD.items() if name != member}
        yield json.dumps(rest).encode(), f"bad.jsonl line 1: {member} is missing", "--conflicting"
    for ops in ([["put", "a", None]], [["put", "", "x"]], [["put", "a", ["\ud800"]]]):
        text = json.dumps(GOOD | {"ops": [["put", "a", {"x": 1.5}], *ops]}).encode()
        yield text, "bad.jsonl line 1: ops has no operation at place 1", "--all --texts"
    text = b'{"r":0,"i":0,"seq":1,"deps":[],"ops":[["put","a",' + b"[" * 128 + b"]" * 128 + b"]]}"
    yield text, "bad.jsonl line 1: ops has no operation at place 0", "--all --texts"
    reads = (json.dumps(GOOD | {"i": i + 1, "deps": []}) + "\n" for i in range(257))
    last = json.dumps(GOOD | {"i": 258, "deps": [257], "ops": [["put", "a", 1]]})
    log = "".join([*reads, last]).encode()
    for word in KINDS:
        yield log, "bad.jsonl line 258: 0.258 has 258 dependencies", f"--{word}"


def is_refused(words, status, why, folder):
    """Whether words are refused with one line that says why, or the lines that ask for a meaning,
    and nothing is written."""
    lines = 2 if why == WHICH else 1
    return trials.is_refused("expand", words, status, why, folder, lines=lines)


# What two lines that commit one instance may not disagree in.
DIFFERENCES = (
    ({"deps": [None, 2]}, "numbers in deps"),
    ({"deps": [None, 3, 0]}, "numbers in deps"),
    ({"deps": []}, "numbers in deps"),
    ({"seq": 2}, "seq"),
    ({"ops": []}, "ops"),
    ({"ops": [["get", "b"]]}, "ops"),
    ({"ops": [["get", "a"], ["get", "a"]]}, "ops"),
)
# What is the same command: other orders, members, texts and statuses, and what is passed over.
SAME = (
    {"deps": [-1, 3]},
    {"deps": [None, 3, None, -1]},
    {"status": "executed", "note": 1},
    {"status": "accepted", "seq": 7, "deps": None},
)


# The same with --texts: a value with another that differs from it, and some that equal it.
TEXTS = (
    ("1", "true", ("1.0", "10e-1")),
    ("0.1", "0.10000000000000001", ("0.10", "1e-1")),
    ('{"x":[1],"y":0}', '{"x":[1,0],"y":0}', ('{"y":0,"x":[1.0]}',)),
    ("[" * 127 + "]" * 127, "[" * 126 + "]" * 126, ()),
)


def log_of_values(path, values):
    """Writes a log that commits one instance once for each text of a value."""
    form = '{{"r":0,"i":0,"seq":1,"deps":[0],"ops":[["put","a",{}]]}}\n'
    texts = map(form.format, values)
    path.write_text("".join(texts), encoding="utf-8")


def disagreements_of_texts(folder):
    """How many logs of values that are equal, or that are not, are not taken, or refused, as they
    should be, and of how many."""
    wrong = 0
    for number, (value, other, same) in enumerate(TEXTS):
        room = folder / f"texts{number}"
        room.mkdir()
        log_of_values(room / "good", [value, *same])
        expand([room / "good"], room / "out", All, more=["--texts"])
        found, wanted = ((room / name).read_text() for name in ("out/good", "good"))
        wrong += found != wanted.replace('"deps":[0]', '"deps":[]')
        log_of_values(room / "bad", [value, *same, other])
        said = f"bad line 1 and bad line {len(same) + 2} commit 0.0 with different ops"
        wrong += not is_refused(["--all", "--texts", "bad", "--out", "new"], 1, said, room)
    return wrong, 2 * len(TEXTS)


def disagreeing_logs():
    """Pairs of logs that commit one instance in two ways, each with what is said."""
    for change, why in DIFFERENCES:
        yield GOOD | change, why
        yield dict(reversed((GOOD | change).items())), why


def disagreements(folder):
    """How many logs with lines that disagree, or that agree, are not refused, or taken, as they
    should be, and of how many."""
    wrong = tried = 0
    agreed = [GOOD, *(GOOD | change for change in SAME), dict(reversed(GOOD.items()))]
    for word in KINDS:
        for other, why in disagreeing_logs():
            for logs in ([*agreed, other],), (agreed, [{"r": 1} | GOOD | {"i": 1}, other]):
                room = folder / f"disagree{tried}"
                write_logs(room, logs)
                names = [path.name for path in sorted(room.iterdir())]
                place = f"{names[-1]} line {len(logs[-1])}"
                said = f"0.jsonl line 1 and {place} commit 0.0 with different {why}"
                wrong += not is_refused([f"--{word}", *names, "--out", "out"], 1, said, room)
                tried += 1
        expand(write_logs(folder / f"agree-{word}", [agreed, agreed]), folder / word, KINDS[word])
        lines = [json.loads(line) for path in sorted((folder / word).iterdir())
                 for line in path.read_text().splitlines()]  # fmt: skip
        deps = [line["deps"] for line in lines if line.get("status") != "accepted"]
        wrong += len(deps) != 10 or deps != [[[1, 0]]] * 10
        tried += 1
    return wrong, tried


def cases_of_words(folder):
    """Words that must be refused, over files of a folder, each with the status and what is
    said."""
    for name in ("a", "b"):
        (folder / name).mkdir()
        (folder / name / "0.jsonl").write_text(json.dumps(GOOD))
    (folder / "link").symlink_to("a")
    (folder / "base").write_text('["executed",0,"waiting",0,"components",0]\n["done",0]\n')
    low = "a/0.jsonl line 1: i is below 1, where --first says that instances begin"
    yield ["a/0.jsonl", "--out", "out"], 2, WHICH
    yield [], 2, WHICH
    yield ["--all", "--conflicting", "a/0.jsonl"], 2, "argument --conflicting: not allowed with"
    yield ["--first", "2", "a/0.jsonl"], 2, "argument --first: invalid choice: 2"
    yield ["--all", "--first", "1", "a/0.jsonl", "--out", "out"], 1, low
    yield ["--unknown"], 2, "unrecognized arguments: --unknown"
    for *words, status, why in (
        *trials.WORDS_OF_BOTH,
        ("a/0.jsonl", "--out", "link", 2, "link is the folder of a/0.jsonl"),
        ("a/0.jsonl", "--out", "base", 2, "base is no folder"),
        ("a/0.jsonl", "c.jsonl", "--out", "out", 1, "c.jsonl can not be read: No such file"),
        ("a/0.jsonl", "b", "--out", "out", 1, "b can not be read: Is a directory"),
        ("a/0.jsonl", "--out", "base/out", 1, "base/out can not be written: Not a directory"),
        ("--base", "base", "a/0.jsonl", "--out", "out", 1, "base line 2: no instance"),
    ):
        yield ["--conflicting", *words], status, why


def refusals(folder):
    """How many refusals of words, files and lines are not as they should be, and of how many."""
    cases = list(cases_of_words(folder))
    wrong = sum(not is_refused(*case, folder) for case in cases)
    for text, why, meaning in bad_logs():
        (folder / "bad.jsonl").write_bytes(text)
        words = [*meaning.split(), "bad.jsonl", "--out", "out"]
        wrong += not is_refused(words, 1, why, folder)
    (folder / "pairs").mkdir()
    found = [disagreements(folder / "pairs"), disagreements_of_texts(folder / "pairs")]
    wrong += sum(more for more, _ in found)
    return wrong, sum(tried for _, tried in found) + len(cases) + sum(1 for _ in bad_logs())


def test(_program, _seed):
    """Tries what must be refused, and what must be taken."""
    with tempfile.TemporaryDirectory() as folder:
        wrong, tried = refusals(pathlib.Path(folder))
    print(f"contrib/expand: {tried} refusals and agreements, {wrong} of them wrong")
    return 1 if wrong else 0
