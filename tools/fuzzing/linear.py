"""Asks whether random histories of clients are linear.

    tools/fuzz linear                       1,000 maps of up to 7 instances, and 20 clusters
    tools/fuzz linear --cases 20000 --clusters 200 --seed 3
    tools/fuzz linear --alone               compares the two searches with each other, without epx

One search makes each line of an answer by its definition. The other tries all orders of the
executed commands that keep real time and the order of those that conflict: there is one exactly
where no call is late, and in it each command has the same reply. Histories of maps have equal
times, calls without an answer or a reply, wrong replies, calls of instances that wait or are
missing, and skews. Those of simulated clusters have calls that return once their leader has
executed the command, which must be linear, and calls that return once it is committed, which need
not. Bad lines must be refused at their place; `--refusals N` says how often all are tried.
"""

import json

from command_line import count
from fuzzing.cases import Kind
from fuzzing.clusters import simulate, with_pairs
from fuzzing.histories import MOST, Call, Executed, call_row, history_of, random_calls
from fuzzing.history_lines import BAD_LINES, GOOD_LINES
from fuzzing.lines import committed, name_of, text_of
from fuzzing.maps import Map

SKEWS = [0, 0, 0, 1, 2, 5, MOST]
REFUSED_SKEWS = ["-1", str(MOST + 1), "x", "1.0", ""]
# The moments of a simulated cluster have fractions.
UNIT = 1000
CLUSTER = 60


def add_options(words):
    words.add_argument("--instances", type=count, default=7, help="of a map, at most")
    words.add_argument("--alone", action="store_true", help="runs no program")


def is_without_program(given):
    return given.alone


def ask(case, executed, calls, skew=0):
    """Compares an answer with what the definitions find, and returns this."""
    wanted = executed.findings(calls, skew)
    case.found["linear histories"] += not wanted
    history = case.folder / f"history-{len(case.calls)}"
    history.write_text(history_of(case.rng, calls))
    if case.program:
        more = ["--exit-code"] if case.rng.random() < 0.5 else []
        more += ["--skew", str(skew)] if skew or case.rng.random() < 0.2 else []
        told = case.answer("linear", *more, *case.plan(), history, case.folder / "log")
        case.expect("the answer", told, wanted or [["linear"]])
    return wanted


def try_map(case):
    """A random history of a random map, with each search."""
    given = Map(case.rng, case.given.instances)
    (case.folder / "log").write_text(given.text())
    executed = Executed(given.map)
    others = sorted(given.entries.keys() - {*executed.listed}) + [(7, 0), (9, 9)]
    calls, skew = random_calls(case.rng, executed, others), case.rng.choice(SKEWS)
    found = ask(case, executed, calls, skew)
    order, is_late = executed.serial_order(calls, skew), any(row[0] == "late" for row in found)
    case.expect("the search of all orders", order is not None, not is_late)
    if order:
        wanted = [executed.replies[at] for at in order]
        case.expect("the replies of an order", executed.replies_in(order), wanted)


def moment(time):
    return round(time * UNIT)


def cluster_calls(rng, commands, committed_at, reaches):
    """The calls of a cluster that return once their leader executes, and once it commits."""
    at_execution, at_commit = {}, {}
    for at, line in enumerate(commands):
        name, known = name_of(line), []
        at_execution[name], at_commit[name] = Call(moment(at)), Call(moment(at))
        if name in committed_at:
            at_commit[name].returned = moment(committed_at[name])
        for other in sorted(reaches.get(name, ())):
            # what other replicas commit is known here some time later
            delay = rng.expovariate(0.1) if other[0] != name[0] else 0
            known.append(committed_at[other] + delay if other in committed_at else None)
        if known and None not in known:
            at_execution[name].returned = moment(max(known))
    return at_execution, at_commit


def try_cluster(case):
    """Calls of a cluster, whose replicas may lose a few commands before they are committed."""
    rng = case.rng
    commands, events = simulate(rng, rng.choice([3, 5]), CLUSTER)
    entries = with_pairs(commands)
    lost = rng.sample(sorted(entries), rng.choice([0, 0, 1, 2]))
    committed_at = {name_of(commands[at]): time for time, at, _ in events}
    committed_at = {name: time for name, time in committed_at.items() if name not in lost}
    entries = [entries[name] for name in committed_at]
    (case.folder / "log").write_text(text_of(entries))
    m = committed(entries)
    executed = Executed(m)
    reaches = {name: m.reached(name) for name in m.instances}
    at_execution, at_commit = cluster_calls(rng, commands, committed_at, reaches)
    for name, reply in zip(executed.listed, executed.replies):
        at_execution[name].reply = reply
    case.expect("calls that return at execution", ask(case, executed, at_execution), [])
    late = any(row[0] == "late" for row in ask(case, executed, at_commit))
    case.found["clusters that return at the commit with late calls"] += late


def expect_refusal(case, what, lines, words, status, why):
    """A history, or words before it, must be refused, and the first line says why."""
    history = case.folder / "history"
    history.write_bytes(b"\n".join(lines))
    done = case.call("linear", *words, *case.plan(), history, case.folder / "log")
    said = why if why in done.stderr else done.stderr
    case.expect(what, [done.returncode, done.stdout, said], [status, "", why])


def try_refusals(case):
    """Bad lines at any place of a history, a call of an instance that has one, bad skews, and good
    lines at the limits."""
    if not case.program:
        return
    (case.folder / "log").write_text("")
    good = [json.dumps(call_row((at, at), Call(at, at + 1))).encode() for at in range(6)]
    for line in [*BAD_LINES, *good[:3]]:
        before = [*good[:3], *case.rng.choice([[], [b""], [b" \t\r", b""]])]
        case.rng.shuffle(before)
        after = case.rng.choice([[], [b""], good[3:], [b"[]"]])
        why = f"epx: fault 9: base line {len(before) + 1} is not as it must be\n"
        expect_refusal(case, f"a bad line {line[:60]}", [*before, line, *after], [], 1, why)
    for skew in REFUSED_SKEWS:
        expect_refusal(case, f"a bad skew {skew}", good, [f"--skew={skew}"], 2, "skew")
    lines = [line.encode() for line in GOOD_LINES]
    history = case.folder / "history"
    history.write_bytes(b"\n".join(lines))
    rows = [json.loads(line) for line in lines if line.strip()]
    lost = sorted(["lost", *row[1:3]] for row in rows if row[4] is not None)
    told = case.answer("linear", *case.plan(), history, case.folder / "log")
    case.expect("lines at the limits", told, lost)


KINDS = {
    "cases": Kind("maps, with a history each", 1_000, 800, try_map),
    "clusters": Kind("clusters", 20, 20, try_cluster),
    "refusals": Kind("sets of bad lines", 1, 1, try_refusals),
}
