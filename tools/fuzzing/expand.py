"""Expands numbers as replicas keep them, by `contrib/expand`, and runs what is written.

    tools/fuzz expand                       2,000 sets of random lines, and some of each other kind
    tools/fuzz expand --cases 10000 --clusters 60 --seed 3

- Sets of random lines: the pairs must reach the committed instances that all pairs would, and of
  those that are not committed the first of each replica. `--reports N` sets also have their reports
  compared: that of all pairs, and that of the tool's.
- `--clusters N`: simulated clusters of either kind of replicas, with commands of one key, of up to
  two or of up to four. Expanded they are covered, have the replies and the store of one of the
  replicas, and allow the order in which it executes. With `--texts` the same bytes are written.
- `--compacted N`: clusters that dropped what they executed, and lack an instance since. With a base
  of what was dropped they have the replies, the waiting instances and the store of the whole.
- `--banks N`: logs of `contrib/bank`, with numbers in place of their pairs.
- `--large N`: clusters of 45,000 instances, of which several processes must find the pairs that one
  finds.
- `--many N`: two logs with an instance of too many dependencies. A first part is run, and the rest
  is expanded with its report as a base.
"""

import collections
import json
import subprocess

from command_line import TOP
from fuzzing.cases import Differs, Kind
from fuzzing.clusters import cluster, operation, order_of_replica, with_pairs
from fuzzing.lines import committed, name_of
from fuzzing.model import execute, text_of
from fuzzing.streams import Report
from logs import write_texts
from pairs import KINDS as MEANINGS
from pairs import All

EXPAND, BANK = TOP / "contrib/expand", TOP / "contrib/bank"


def is_all(word):
    """Whether a word of the tool means all instances up to a number."""
    return MEANINGS[word] is All


def write_logs(folder, logs):
    """Writes logs of these rows, and returns their paths."""
    return write_texts(folder, map(text_of, logs))


def call_tool(case, tool, *words):
    """Calls a tool of the repository, which must end well."""
    case.note([f"tools/{tool.name}", *words])
    done = subprocess.run([tool, *map(str, words)], capture_output=True, check=False)
    if done.returncode != 0:
        told = f"{done.returncode}: {done.stderr.decode(errors='replace')}"
        raise Differs(f"the status of {tool.name}", told, "0")


def expand(case, paths, folder, word, first=0, more=()):
    """Expands logs, and returns the paths of what is written."""
    words = [f"--{word}", *paths, "--out", folder, "--first", first, *more]
    call_tool(case, EXPAND, *words)
    return sorted(folder.glob("*.jsonl"))


def report(case, *words):
    """A report, whose first line must count its others."""
    found = Report(case.text(*words))
    wanted = ["executed", len(found.replies), "waiting", len(found.waiting)]
    case.expect("the counts of a report", found.rows[0][:4], wanted)
    return found


# ---- random lines


def random_lines(rng, replicas, most):
    """Instances with any numbers, also such as no replica would have: with cycles, with numbers
    above all that there are, and without some instances. Few or many have no number."""
    first, hole, none = rng.choice((0, 1)), rng.choice((0, 0.1, 0.3)), rng.choice((0, 0.4, 0.8))
    top = rng.choice((most // 3, most + 2))
    lines = []
    for replica in range(replicas):
        for number in range(first, first + rng.randint(1, most)):
            deps = [None if rng.random() < none else rng.randint(-1, top) for _ in range(replicas)]
            ops = [operation(rng, f"k{rng.randrange(3)}", number)]
            line = {"r": replica, "i": number, "seq": rng.randrange(4), "deps": deps, "ops": ops}
            if rng.random() >= hole:
                lines.append(line)
    return lines or [line], first


def all_pairs(line, first):
    """Each instance up to the numbers of a line."""
    return {(replica, number) for replica, most in enumerate(line["deps"])
            for number in range(first, (-1 if most is None else most) + 1)
            if (replica, number) != name_of(line)}  # fmt: skip


def firsts(names):
    """Of the instances of each replica the first."""
    least = {replica: min(i for r, i in names if r == replica) for replica, _ in names}
    return set(least.items())


def try_lines(case):
    """The pairs of random lines must reach what all pairs would. A base may have done some. None of
    the pairs of an instance may reach another one of them, but where it reaches itself."""
    rng = case.rng
    lines, first = random_lines(rng, rng.randint(1, 4), rng.choice((3, 7)))
    (case.folder / "lines").write_text(text_of(lines))
    commits = collections.defaultdict(dict)
    for line in lines:
        commits[line["r"]][line["i"]] = line
    names = {name_of(line) for line in lines}
    done = {name for name in sorted(names) if rng.random() < rng.choice((0, 0, 0.2))}
    rule, left = All(commits, done, first), [it for it in lines if name_of(it) not in done]
    left.sort(key=name_of)
    few = committed(line | {"deps": rule.pairs(line)} for line in left)
    whole = committed(line | {"deps": all_pairs(line, first) - done} for line in left)
    for x in whole.instances:
        wanted = whole.reached(x)
        wanted = wanted & names | firsts(wanted - names)
        case.expect(f"what {x[0]}.{x[1]} reaches", sorted(few.reached(x)), sorted(wanted))
        named = few.dependencies(x) & names
        repeated = [y for y in sorted(named) if named & few.reached(y) - {y}]
        if len(whole.component(x)) == 1:
            case.expect(f"what {x[0]}.{x[1]} names twice", repeated, [])


def try_report(case):
    """The report of all pairs must be that of what the tool writes."""
    rng = case.rng
    lines, first = random_lines(rng, rng.randint(2, 5), 30)
    whole = [line | {"deps": sorted(all_pairs(line, first))} for line in lines]
    paths = write_logs(case.folder / "whole", [whole])
    numbers = write_logs(case.folder / "numbers", [lines])
    few = expand(case, numbers, case.folder / "few", "all", first)
    case.expect("the report", case.text("run", *few), case.text("run", *paths))


# ---- clusters


def try_cluster(case):
    """The expanded logs of a cluster must be covered, have the replies and the store of one of its
    replicas, and allow the order in which it executes."""
    rng, folder = case.rng, case.folder
    word, keys, first = rng.choice(sorted(MEANINGS)), rng.choice((1, 2, 4)), rng.choice((0, 1))
    logs = cluster(rng, rng.choice((3, 5, 7)), 400, keys, first)
    commands = {name_of(line): line for lines in logs for line in lines}
    numbers = write_logs(folder / "numbers", logs)
    paths = expand(case, numbers, folder / "expanded", word, first)
    texts = expand(case, numbers, folder / "texts", word, first, ["--texts"])
    told, wanted = ([path.read_text() for path in it] for it in (texts, paths))
    case.expect("what --texts writes", told, wanted)
    m = committed(with_pairs(commands.values(), is_all(word)).values())
    order = order_of_replica(rng, m)
    (folder / "list").write_text(text_of(order))
    case.expect("the verdict", case.answer("check", folder / "list", *paths), [["lawful"]])
    case.expect("the audit", case.answer("audit", *paths), [["covered"]])
    replies, store = execute(m.commands_in(order), {})
    found = report(case, "run", *paths)
    case.expect("the replies", found.replies, dict(zip(order, replies)))
    case.expect("the store", {key: value for _, key, value in found.store}, store)


def without(lines, names):
    return [line for line in lines if name_of(line) not in names]


def try_compacted(case):
    """A cluster that dropped what it executed, and lacks an instance since, must have the replies,
    the waiting instances and the store of the whole, with a base of what it dropped."""
    folder, word = case.folder, case.rng.choice(sorted(MEANINGS))
    logs = [without(log, [(0, 150)]) for log in cluster(case.rng, 3, 600)]
    paths = expand(case, write_logs(folder / "numbers", logs), folder / "whole", word)
    early = [[line for line in map(json.loads, path.read_text().splitlines()) if line["i"] < 100]
             for path in paths]  # fmt: skip
    begun = report(case, "run", *write_logs(folder / "early", early))
    rows = [["executed", 0, "waiting", 0, "components", 0]]
    rows += [["done", *name] for name in sorted(begun.replies)] + begun.store
    base = folder / "base"
    base.write_text(text_of(rows))
    late = write_logs(folder / "late", [without(log, begun.replies) for log in logs])
    expanded = expand(case, late, folder / "expanded", word, more=["--base", base])
    found, whole = report(case, "resume", base, *expanded), report(case, "run", *paths)
    case.expect("the end", found.end, whole.end)
    case.expect("the replies", begun.replies | found.replies, whole.replies)
    both = begun.replies.keys() & found.replies.keys()
    case.expect("what is executed twice", sorted(both), [])
    is_there = [bool(it) for it in (begun.replies, found.replies, found.waiting, found.store)]
    case.expect("replies, waiting instances and a store", is_there, [True] * 4)


# ---- banks, large logs and instances of many dependencies


def turned(line):
    """A line with one number a replica in place of its pairs."""
    greatest = [None] * 3
    for replica, number in line["deps"]:
        greatest[replica] = max(number, -1 if greatest[replica] is None else greatest[replica])
    return line | {"deps": greatest}


def try_bank(case):
    """A bank's logs must give the same answers once they were turned and expanded.

    Where an instance is missing, more may wait: one number a replica names it for whatever is above
    it. The replies of all others are the same, and so is the store where as many are executed."""
    seed, folder = case.rng.randrange(1_000_000), case.folder
    (folder / "bank").mkdir()
    call_tool(case, BANK, "--instances", 2000, "--seed", seed, "--out", folder / "bank")
    paths = sorted((folder / "bank").glob("*.jsonl"))
    logs = [[turned(json.loads(line)) for line in path.read_text().splitlines()] for path in paths]
    numbers = write_logs(folder / "turned", logs)
    expanded = expand(case, numbers, folder / "expanded", "conflicting")
    case.expect("the audit", case.answer("audit", *expanded), [["covered"]])
    found, whole = report(case, "run", *expanded), report(case, "run", *paths)
    wanted = {name: whole.replies.get(name) for name in found.replies}
    case.expect("the replies", found.replies, wanted)
    if len(found.replies) == len(whole.replies):
        case.expect("the store", found.store, whole.store)


def try_large(case):
    """A cluster that is large enough for several processes must have the pairs that one finds."""
    logs = cluster(case.rng, 3, 45_000)
    commits = collections.defaultdict(dict)
    for line in (line for lines in logs for line in lines):
        commits[line["r"]][line["i"]] = line
    numbers = write_logs(case.folder / "numbers", logs)
    for word, meaning in MEANINGS.items():
        paths, rule = expand(case, numbers, case.folder / word, word), meaning(commits, (), 0)
        for path, lines in zip(paths, logs):
            wanted = text_of(line | {"deps": rule.pairs(line)} for line in lines)
            case.expect(f"the pairs of --{word}", path.read_text(), wanted)


def try_many(case):
    """Logs with an instance of too many dependencies must have the same store where a first part is
    run, and the rest is expanded with its report as base."""
    word, size = case.rng.choice(sorted(MEANINGS)), case.rng.randint(257, 400)
    early = [{"r": 0, "i": i, "seq": 1, "deps": [], "ops": [["get", "a"], ["put", f"k{i}", i]]}
             for i in range(size)]  # fmt: skip
    last = {"r": 1, "i": 0, "seq": 2, "deps": [size - 1], "ops": [["put", "a", 1]]}
    folder, base = case.folder, case.folder / "base"
    paths = expand(case, write_logs(folder / "early", [early]), folder / "first", word)
    base.write_text(case.text("run", *paths))
    late = write_logs(folder / "late", [[last]])
    paths = expand(case, late, folder / "second", word, more=["--base", base])
    found = report(case, "resume", base, *paths)
    stored = {f"k{i}": i for i in range(size)} | {"a": 1}
    case.expect("the store", {key: value for _, key, value in found.store}, stored)
    case.expect("the replies", found.replies, {(1, 0): ["ok", []]})


KINDS = {
    "cases": Kind("sets of random lines", 2_000, 800, try_lines),
    "reports": Kind("sets with their reports", 20, 20, try_report),
    "clusters": Kind("clusters", 30, 8, try_cluster),
    "compacted": Kind("compacted clusters", 10, 4, try_compacted),
    "banks": Kind("banks", 5, 2, try_bank),
    "large": Kind("large clusters", 1, 0, try_large),
    "many": Kind("instances of many dependencies", 2, 2, try_many),
}
