"""The rows of `times`, `growth` and `against`: one for each log, question and number of workers."""

import os
import pathlib
import tempfile

from benches.questions import QUESTIONS, words_of
from benches.runs import least_runs
from benches.shapes import NAMES, logs_of
from command_line import Words, count, say, some_of, workers


def words_of_table(text):
    """The words of a subcommand that prints such rows."""
    words = Words(text)
    words.add_program()
    several = {"type": some_of(NAMES), "default": NAMES}
    words.add_argument("--shapes", **several, help="the shapes, with commas")
    several = {"type": some_of(QUESTIONS), "default": ["run"]}
    words.add_argument("--questions", **several, help="subcommands, with commas")
    words.add_argument("--instances", type=count, default=65_536)
    several = {"type": workers, "default": ["1", "4"]}
    words.add_argument("--workers", **several, help="the numbers of workers, with commas")
    words.add_argument("--rounds", type=count, default=5)
    return words


def measure(given, programs, name, logs, folder):
    """The cells of each row of some logs: what is asked of them, and the least run of each
    program, which is its path and words of its own. The questions are asked alternately."""
    size = sum(os.path.getsize(log) for log in logs)
    asked = [[it, *words_of(programs[0][0], it, logs, folder)] for it in given.questions]
    for workers in given.workers:
        commands = [
            [*program, question, "--workers", workers, *words]
            for question, *words in asked
            for program in programs
        ]
        runs = iter(least_runs(commands, given.rounds, str(folder / "out")))
        for question in given.questions:
            cells = name, question, f"{size / 1e6:.1f}", workers
            yield cells, size, [next(runs) for _ in programs]


def rows_of_shape(given, programs, name, instances):
    """Those of logs of a shape with so many instances."""
    with tempfile.TemporaryDirectory() as folder:
        folder = pathlib.Path(folder)
        yield from measure(given, programs, name, logs_of(name, instances, folder), folder)


def rows(given, programs):
    """Those of all logs that are named, or of all shapes."""
    if given.logs:
        with tempfile.TemporaryDirectory() as folder:
            yield from measure(given, programs, "given", given.logs, pathlib.Path(folder))
    else:
        for name in given.shapes:
            yield from rows_of_shape(given, programs, name, given.instances)


def begin_table(given, heads):
    """Prints the head of a table, and says how many rows follow."""
    number = (1 if given.logs else len(given.shapes)) * len(given.questions) * len(given.workers)
    say(f"{number} rows, each the least of {given.rounds} times")
    print(f"| {' | '.join(heads)} |\n{'|---' * len(heads)}|", flush=True)


def print_row(cells):
    print(f"| {' | '.join(cells)} |", flush=True)
