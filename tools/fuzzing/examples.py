"""Compares the files of examples/ with what the model, and the searches beside it, make of the
logs. A module, and no tool itself."""

import json

from command_line import TOP
from fuzzing import audit, blockers, compare, graph, run
from fuzzing.histories import Call, Executed
from fuzzing.lines import instance_of, lines_of, read_files, read_logs
from fuzzing.model import CommittedMap, report, resumed_report, text_of
from fuzzing.streams import Report

FOLDER = TOP / "examples"
# The stored answers of one log or of all logs of a folder, by how their names end.
ANSWERS = {
    "report": report,
    "order": run.order,
    "levels": run.levels,
    "blockers": blockers.blockers,
    "audit": audit.audit,
    "dot": graph.picture,
}


def logs_of(path):
    """The logs of an answer: the one of its name, or all of its folder."""
    one = path.with_suffix(".jsonl")
    return [one] if one.exists() else sorted(path.parent.glob("*.jsonl"))


def mended():
    """The map of the damaged logs, without a line that was cut off and one that was changed."""
    texts = [lines_of(text) for text in read_files(logs_of(FOLDER / "corrupted/mended.report"))]
    del texts[4][15], texts[3][23]
    return CommittedMap(filter(None, (instance_of(line) for lines in texts for line in lines)))


def map_of(path):
    return mended() if path.stem == "mended" else read_logs(logs_of(path))


def rows_of(path):
    return [json.loads(line) for line in path.read_text().splitlines()]


def resumed(path):
    """The report of the second half, which goes on from that of the first."""
    base = Report(path.with_name("first.report").read_text())
    store = {key: value for _, key, value in base.store}
    return resumed_report(read_logs(logs_of(path)), base.replies.keys(), store)


def checked(path):
    """What is found of the list beside it. That of damaged logs is compared with the mended map."""
    m = mended() if path.parent.name == "corrupted" else read_logs(logs_of(path))
    return [m.check([tuple(row) for row in rows_of(path.with_suffix(".list"))])]


def linear(path):
    """What is found of the history beside it."""
    calls = {tuple(row[1:3]): Call(row[3], row[4], row[5:] or None)
             for row in rows_of(path.with_suffix(".history"))}  # fmt: skip
    found = Executed(read_logs([path.with_name("log.jsonl")])).findings(calls)
    return found or [["linear"]]


def wanted_of(path):
    """The text that a stored answer should have, or None for a file of another kind."""
    kind = path.suffix[1:]
    if path == FOLDER / "halves/second.report":
        rows = resumed(path)
    elif kind == "compare":
        rows = compare.comparison(read_files(logs_of(path)))
    elif kind in ("check", "linear"):
        rows = {"check": checked, "linear": linear}[kind](path)
    elif kind in ANSWERS:
        rows = ANSWERS[kind](map_of(path))
    else:
        return None
    return rows if isinstance(rows, str) else text_of(rows)


def compare_all():
    """Compares all answers. Returns how many there are, and how many differ."""
    count = wrong = 0
    for path in sorted(FOLDER.rglob("*")):
        wanted = wanted_of(path)
        count += wanted is not None
        if wanted is not None and path.read_bytes() != wanted.encode():
            wrong += 1
            print(f"WRONG {path.relative_to(TOP)}: the model has\n{wanted}", end="")
    return count, wrong
