"""Texts that are nearly logs."""

import pathlib
import random
import re
import tempfile

from command_line import TOP, counted
from stresses.fed_program import LEAST, is_fault

TOKENS = [
    *(
        b"\xff",
        b"\x00",
        b"\xef\xbb\xbf",
        b"\\ud800",
        b"1e999",
        b"-0",
        b"1.0",
        b"18446744073709551616",
        b"null",
    ),
    *(b"[", b"]", b"{", b"}", b'"', b"\\", b",", b":", b"\n", b"\r\n", b" ", b"[" * 130),
    *(b"[[0,1]]", b'"r":1', b'"deps":[]', b'"ops":[]', b'"status":"committed",', b'"status":null,'),
    *(b'["del","a"]', b'["add","a",9223372036854775807]', b'["is","a",null]'),
]


def mutate(rng, text):
    """The text after one change: of a digit, of a byte, of a part that is taken out, repeated or
    moved, or of a token put in."""
    at, to = sorted(rng.randrange(len(text) + 1) for _ in range(2))
    to = min(to, at + rng.choice((1, 3, 30, 3_000)))
    how = rng.randrange(9)
    digits = [place for place, byte in enumerate(text) if byte in b"0123456789"]
    if how > 5 and digits:
        at = rng.choice(digits)
        return text[:at] + rng.choice([b"0", b"1", b"2", b"9", b"255"]) + text[at + 1 :]
    if how == 0 and at < len(text):
        return text[:at] + bytes([text[at] ^ 1 << rng.randrange(8)]) + text[at + 1 :]
    if how == 1:
        return text[:at] + text[to:]
    if how == 2:
        return text[:to] + text[at:to] + text[to:]
    if how == 3:
        other = rng.randrange(len(text) + 1)
        return text[:other] + text[at:to] + text[other:]
    if how == 4:
        return text[:at] + bytes([rng.randrange(256)]) + text[at:]
    return text[:at] + rng.choice(TOKENS) + text[at:]


def hostile_text(rng, logs):
    """A good log after a few changes, or some of its lines, or of those of all logs, in another
    order."""
    if rng.randrange(4) == 0:
        lines = rng.choice([*logs, b"\n".join(logs)]).splitlines(keepends=True)
        rng.shuffle(lines)
        return b"".join(lines[: rng.randrange(len(lines)) + 1])
    text = rng.choice(logs)
    for _ in range(rng.choice((1, 1, 1, 2, 5))):
        text = mutate(rng, text)
    return text


PLANS = [("1", "256"), ("4", "1"), ("1", "1"), ("4", "256")]


def is_answer(ended):
    """Whether it has the form of a report, or is a fault of what the logs hold."""
    is_report = (ended.status, ended.err) == (0, b"") and re.match(
        rb'\["executed",\d+,"waiting",\d+,', ended.out
    )
    return is_report or (is_fault(ended) and ended.status == 1)


def is_comparison(ended, first):
    """Whether it has the form of a comparison, with no bad line and no difference exactly where a
    run is not refused for one."""
    is_refused = re.match(rb"epx: fault [46]:", first.err) is not None
    has_refused = re.search(rb'^\["(?:bad|differs)",', ended.out, re.M) is not None
    is_whole = (ended.status, ended.err) == (0, b"") and ended.out.startswith(b'["log",0,')
    return is_whole and is_refused == has_refused


def try_text(tool, text, good):
    """Runs over a hostile log and a good one by each plan, compares the two, and asks for the order
    and the levels of one plan; whether all agree."""
    path = tool.file("hostile.jsonl", text)
    ended = [
        tool.run(["run", "--workers", workers, "--cut", cut, path, good]) for workers, cut in PLANS
    ]
    shown = [tool.run([task, path, good]) for task in ("order", "levels")]
    compared = [
        tool.run(["compare", "--workers", workers, "--cut", cut, path, good])
        for workers, cut in PLANS
    ]
    first = ended[0]
    agree = all(it.come_to() == first.come_to() for it in ended)
    agree = agree and all(it.come_to() == compared[0].come_to() for it in compared)
    agree = agree and is_comparison(compared[0], first)
    header = first.out.partition(b"\n")[0]
    same = all(
        (it.status, it.err, it.out.partition(b"\n")[0]) == (first.status, first.err, header)
        for it in shown
    )
    return first, is_answer(first) and agree and same


def texts(tool, count, seed):
    """Random changes of good logs: an answer, the same by each plan."""
    logs = [it.read_bytes() for it in sorted((TOP / "examples").rglob("*.jsonl"))]
    good = tool.file("good.jsonl", LEAST.replace(b'"r":0', b'"r":255'))
    rng, came_to = random.Random(seed), {}
    for place in counted(f"texts of seed {seed}", range(count)):
        text = hostile_text(rng, logs)
        ended, is_right = try_text(tool, text, good)
        if not is_right:
            kept = pathlib.Path(tempfile.gettempdir(), f"hostile-{seed}-{place}.jsonl")
            kept.write_bytes(text)
            tool.say(
                f"text {place} of seed {seed}, kept in {kept}",
                ended,
                False,
                "one answer by each plan",
            )
        said = re.sub(rb"^epx: (fault \d)(?:.*: (\w+))?.*\n", rb"\1 \2", ended.err)
        kind = said.decode(errors="replace") or "a report"
        came_to[kind] = came_to.get(kind, 0) + 1
    print(f"       {count} texts of seed {seed}: {dict(sorted(came_to.items()))}", flush=True)
