"""Times audits of logs in which uncovered pairs are hard to find or to exclude.

    tools/bench audit                                     every shape, 16,384 and 65,536 instances
    tools/bench audit --shapes cold-keys,far-pairs
    tools/bench audit --instances 1048576 --rounds 1      larger logs
    tools/bench audit --limit 60                          ends an audit after so many seconds
    tools/bench audit --program PROGRAM

A row has the least times of `audit` and of `audit --all` over the rounds, with one worker, and
their ratios to that of `order`. Only ratios of one run count; run nothing else beside it. Each
answer of `audit` is compared with the one that follows from how the log was made, and `audit --all`
has to say covered where it does; an audit that was ended has no answer. The exit status is 1 where
an answer is wrong, and 2 where the program is missing or fails.

Of `cold-keys` two keys of all are alike, and of `late-free` those of the last two instances.
`late-pair` is a chain of pairs that share a key, but for its last two; `late-dense` is the same
with 64 dependencies each. Of `all-conflict` all write one key and are unrelated, and `late-hot` is
a chain of one key, but for its last two. `far-pairs` are two covered chains that meet half a log
later, and `far-gap` is the same with one pair at the end.
"""

import json
import pathlib
import tempfile

from benches.audit_shapes import SHAPES
from benches.log_files import write_logs
from benches.runs import least_runs
from command_line import Words, built, count, say, some_of

TASKS = ["order"], ["audit"], ["audit", "--all"]


def arguments():
    words = Words(__doc__)
    words.add_program()
    several = {"type": some_of(SHAPES), "default": [*SHAPES]}
    words.add_argument("--shapes", **several, help="the shapes, with commas")
    counts = lambda word: [count(it) for it in word.split(",")]
    words.add_argument(
        "--instances", type=counts, default=[16384, 65536], help="the sizes, with commas"
    )
    words.add_argument("--rounds", type=count, default=3)
    words.add_argument("--limit", type=count, default=600, help="seconds for one run")
    return words.parse_args()


def measure(given, shape, count):
    """Prints the row of a shape, and says whether its answer is right."""
    lines, wanted = SHAPES[shape](count)
    with tempfile.TemporaryDirectory() as folder:
        folder = pathlib.Path(folder)
        logs = write_logs(lines, folder)
        commands = [[given.program, *task, "--workers", "1", *logs] for task in TASKS]
        order, *audits = least_runs(commands, given.rounds, str(folder / "out"), given.limit)
    right = "ended" if None in (order, *audits) else "yes"
    if right == "yes":
        least, every = (run.first_line for run in audits)
        is_covered = json.loads(every) == ["covered"]
        if json.loads(least) != wanted or is_covered != (wanted == ["covered"]):
            right = f"no: {(least + every).decode(errors='replace').split()}"
    times = " | ".join(cells(given, audit, order) for audit in audits)
    print(f"| {shape} | {count:,} | {times} | {right} |", flush=True)
    return not right.startswith("no")


def cells(given, audit, order):
    """The two cells of an audit: its seconds, and its ratio to those of the order."""
    if audit is None:
        return f"over {given.limit:g} | "
    times = "" if order is None else f"{audit.seconds / order.seconds:.1f}"
    return f"{audit.seconds:.3f} | {times}"


def main():
    given = arguments()
    given.program = built(given.program)
    audits = [(shape, count) for shape in given.shapes for count in given.instances]
    say(f"{len(audits)} audits, each the least of {given.rounds} times; all take minutes")
    both = "Audit, seconds | Times order | All, seconds | Times order"
    print(f"| Shape | Instances | {both} | Right |\n|---|---|---|---|---|---|---|")
    wrong = sum(not measure(given, shape, count) for shape, count in audits)
    say(f"{len(audits)} audits, {wrong} of them wrong")
    return 1 if wrong else 0
