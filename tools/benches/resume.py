"""Times going on from the report of the first half of logs, compared with running the whole,
alternating runs.

    tools/bench resume LOG..                       11 rounds with one worker, and with four
    tools/bench resume --rounds 31 --workers 1 LOG..

The first half are the instances with the lower sequence numbers, so that it holds what its
instances depend on. Of each log the lines of either half make a log of their own. Before anything
is timed the two parts must end with the store of the whole. The ratios are those of the least
times; run nothing else beside it. The exit status is 1 where the stores differ.
"""

import json
import pathlib
import subprocess
import tempfile

from benches.runs import least_runs, ratio
from command_line import Words, built, count, say, stop, workers


def arguments():
    words = Words(__doc__)
    words.add_program()
    words.add_argument("--rounds", type=count, default=11)
    several = {"type": workers, "default": ["1", "4"]}
    words.add_argument("--workers", **several, help="the numbers of workers, with commas")
    words.add_argument("logs", nargs="+", type=pathlib.Path, metavar="LOG")
    return words.parse_args()


def name_of(line):
    entry = json.loads(line)
    return entry["r"], entry["i"]


def halves(logs, folder):
    """The paths of each log's two halves."""
    try:
        texts = [log.read_bytes().splitlines(keepends=True) for log in logs]
        numbers = {name_of(line): json.loads(line)["seq"] for text in texts for line in text}
    except OSError as error:
        stop(f"{error.filename} can not be read: {error.strerror}")
    except (ValueError, TypeError, KeyError):
        stop("a line of these logs is none that epx reads; epx run --explain says which")
    order = sorted(numbers, key=lambda name: (numbers[name], name))
    early = set(order[: len(order) // 2])
    paths = ([], [])
    for number, text in enumerate(texts):
        parts = [line for line in text if name_of(line) in early], [
            line for line in text if name_of(line) not in early
        ]
        for half, (part, to) in enumerate(zip(parts, paths)):
            to.append(folder / f"{number}.{half}.jsonl")
            to[-1].write_bytes(b"".join(part))
    return paths


def output(program, *words):
    return subprocess.run([program, *map(str, words)], capture_output=True, check=True).stdout


def store(report):
    return [line for line in report.splitlines() if line.startswith(b'["store"')]


def is_same_end(program, base, first, second, logs):
    """Whether the two parts end with the store of the whole. Writes the base."""
    base.write_bytes(output(program, "run", *first))
    whole, parts = output(program, "run", *logs), output(program, "resume", base, *second)
    return store(whole) == store(parts)


def main():
    given = arguments()
    given.program = built(given.program)
    say("compares the stores first")
    with tempfile.TemporaryDirectory() as name:
        folder = pathlib.Path(name)
        base, (first, second) = folder / "base.report", halves(given.logs, folder)
        if not is_same_end(given.program, base, first, second, given.logs):
            say("the two parts do not end with the store of the whole")
            return 1
        for workers in given.workers:
            say(f"{given.rounds} rounds with {workers} workers")
            asked = ["run", *given.logs], ["resume", base, *second]
            commands = [[given.program, task, "--workers", workers, *paths]
                        for task, *paths in asked]  # fmt: skip
            whole, rest = least_runs(commands, given.rounds, str(folder / "out"))
            print(
                f"workers {workers}: whole {whole.seconds:.3f} s, going on {rest.seconds:.3f} s, "
                f"ratio {ratio(rest, whole)}",
                flush=True,
            )
    say("the two parts end with the store of the whole")
    return 0
