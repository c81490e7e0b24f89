"""Compares random logs with each other, and the answers with those of a plain search.

    tools/fuzz compare                      5,000 sets of 1 to 5 logs
    tools/fuzz compare --cases 50000 --seed 3
    tools/fuzz compare LOG..                prints what these logs say against each other, by the
                                            search alone

The search follows the definitions word by word: it looks at all pairs of lines, and at all pairs
of numbers of a replica. The logs repeat each other, in other words or in the same ones, but for
lines that differ, that are missing, that are bad in each way there is, or that commit nothing.
Each set is compared twice, with other numbers of workers and cuts, and once with `--exit-code`.
The search must also read random lines as they were made: good ones, bad ones, and ones that commit
nothing. `--readings N` says how many of each.
"""

import collections

from fuzzing.cases import FOUND, Kind
from fuzzing.lines import Bad, instance_of, lines_of, read_files
from fuzzing.model import Instance, text_of
from fuzzing.random_lines import bad_line, entry_of, line_of, open_line, random_logs

Line = collections.namedtuple("Line", "log number instance")


def differing(own):
    """The members in which two lines of an instance differ."""
    pairs = [(p.instance, q.instance) for p in own for q in own]
    return [name for name in ("seq", "deps", "ops")
            if any(getattr(d, name) != getattr(e, name) for d, e in pairs)]  # fmt: skip


def groups(own):
    """The places of the lines of an instance, those that commit the same together."""
    firsts = [p for n, p in enumerate(own) if all(q.instance != p.instance for q in own[:n])]
    return [[[q.log, q.number] for q in own if q.instance == p.instance] for p in firsts]


def gaps(known, own):
    """The longest runs of numbers in `known` without a number in `own`, by first and last."""
    lacked = known - own
    runs = [(one, other) for one in lacked for other in lacked
            if one <= other and not any(one < number < other for number in own)]  # fmt: skip

    def is_within(run, other):
        return other[0] <= run[0] and run[1] <= other[1] and run != other

    return sorted(run for run in runs if not any(is_within(run, other) for other in runs))


def comparison(texts):
    """What logs say against each other, line by line."""
    lines, bad = [], []
    for log, text in enumerate(texts):
        for number, line in enumerate(lines_of(text), 1):
            try:
                instance = instance_of(line)
            except Bad as why:
                bad.append(["bad", log, number, str(why)])
                continue
            if instance is not None:
                lines.append(Line(log, number, instance))
    ids = sorted({p.instance.id for p in lines})
    answer = []
    for log in range(len(texts)):
        count = sum(p.log == log for p in lines)
        answer.append(["log", log, count, sum(b[1] == log for b in bad)])
    answer += bad
    for x in ids:
        own = [p for p in lines if p.instance.id == x]
        if differing(own):
            answer.append(["differs", *x, differing(own), groups(own)])
    for log in range(len(texts)):
        for replica in sorted({r for r, _ in ids}):
            known = {i for r, i in ids if r == replica}
            own = {p.instance.id[1] for p in lines if (p.log, p.instance.id[0]) == (log, replica)}
            answer += [["lacks", log, replica, *gap] for gap in gaps(known, own)]
    for x in sorted({d for p in lines for d in p.instance.deps} - set(ids)):
        naming = {p.instance.id for p in lines if x in p.instance.deps}
        answer.append(["missing", *x, len(naming)])
    return answer


def answer_alone(paths):
    return comparison(read_files(paths))


def read(line):
    """What the search reads of a line: an instance, nothing, or why it is bad."""
    try:
        return instance_of(line)
    except Bad as why:
        return str(why)


def try_reading(case):
    """The search must read lines as they were made."""
    rng = case.rng
    entry = entry_of(rng, (0, 0), [(0, 0), (0, 1), (1, 0)])
    made = Instance((0, 0), entry["seq"], set(entry["deps"]) - {(0, 0)}, entry["ops"])
    why, bad = bad_line(rng, entry)
    for wanted, line in ((made, line_of(rng, entry)), (None, open_line(rng, entry)), (why, bad)):
        (case.folder / "line").write_bytes(line)
        case.expect("what the search reads", read(line), wanted)


def try_logs(case):
    texts = random_logs(case.rng)
    paths = case.write(texts)
    wanted = comparison(texts)
    is_found = any(row[0] in ("bad", "differs", "lacks") for row in wanted)
    case.found.update(row[0] for row in wanted)
    case.found.update(row[3] for row in wanted if row[0] == "bad")
    for words, status in (([], 0), (["--exit-code"], FOUND if is_found else 0)):
        words += ["--workers", case.rng.choice(["1", "2", "4", "7", "64"])]
        words += ["--cut", case.rng.choice(["1", "1", "3", "256"])]
        done = case.call("compare", *words, *paths)
        case.expect("the comparison", done.stdout + done.stderr, text_of(wanted))
        case.expect("the status", done.returncode, status)


KINDS = {
    "cases": Kind("sets of logs", 5_000, 800, try_logs),
    "readings": Kind("lines of each sort", 2_000, 800, try_reading),
}
