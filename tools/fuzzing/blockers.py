"""Asks which missing instances block how many of random logs.

    tools/fuzz blockers                     1,000 maps of up to 14 instances, in 1 to 3 logs
    tools/fuzz blockers --cases 20000 --seed 3
    tools/fuzz blockers --cases 300 --instances 200     larger maps
    tools/fuzz blockers LOG..               prints the answer to these logs, by the model alone

Some instances of a map are lost, lines repeat, and some name a dependency twice. The sum of all
that are counted must be how many wait in the report of `run`. Half of the calls have `--exit-code`.
"""

from command_line import count
from fuzzing.cases import Kind
from fuzzing.lines import committed, read_logs
from fuzzing.maps import SMALL, Map, scattered

# Names of instances that no log commits: some are below those that are committed.
STRANGERS = [(0, 40), (1, 41), (7, 0), (7, 1), (7, 10), (200, 2**64 - 1)]


def add_options(words):
    words.add_argument("--instances", type=count, default=SMALL, help="of a map, at most")


def blockers(m):
    """How many each missing instance blocks alone and how many name it, and how many reach several
    missing ones."""
    needed = [m.missing_below(x) for x in m.instances]
    named = [one.deps for one in m.instances.values()]
    rows = [["blocks", *y, sum(ys == {y} for ys in needed), sum(y in ys for ys in named)]
            for y in sorted(set().union(*named) - m.instances.keys())]  # fmt: skip
    return [*rows, ["several", sum(len(ys) > 1 for ys in needed)]]


def answer_alone(paths):
    return blockers(read_logs(paths))


def random_entries(rng, most):
    """Entries of a random map, some of whose instances are lost, and some of which depend on
    strangers."""
    entries = list(Map(rng, most).entries.values())
    lost = rng.choice([0, 0, 0.05, 0.2])
    entries = [entry for entry in entries if rng.random() >= lost]
    strange = rng.choice([0, 0.05, 0.3])
    for entry in entries:
        named = sorted(entry["deps"])
        named += [rng.choice(STRANGERS) for _ in range(3) if rng.random() < strange]
        # a line may name a dependency twice, or the instance itself
        named += [name for name in [*named, (entry["r"], entry["i"])] if rng.random() < 0.05]
        rng.shuffle(named)
        entry["deps"] = named
    return entries


def try_logs(case):
    entries = random_entries(case.rng, case.given.instances)
    paths = case.write(scattered(case.rng, entries))
    words, wanted = [*case.plan(), *paths], blockers(committed(entries))
    more = ["--exit-code"] if case.rng.random() < 0.5 else []
    told = case.answer("blockers", *more, *words)
    case.expect("the answer", told, wanted)
    waiting = case.answer("run", *words)[0][3]
    case.expect("the sum", sum(row[3] for row in told[:-1]) + told[-1][1], waiting)
    case.found["missing instances"] += len(wanted) - 1
    case.found["missing instances that block none alone"] += sum(row[3] == 0 for row in wanted[:-1])
    case.found["instances that wait for one"] += sum(row[3] for row in wanted[:-1])
    case.found["instances that wait for several"] += wanted[-1][1]


KINDS = {"cases": Kind("maps", 1_000, 800, try_logs)}
