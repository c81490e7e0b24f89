"""Times two programs over logs of several shapes, alternately, and compares what they print.

    tools/bench against PROGRAM                      the built program and this one
    tools/bench against OTHER --program PROGRAM      two others
    tools/bench against PROGRAM --with=--once --with="--once --fast"
    tools/bench against PROGRAM --questions order,audit LOG..

The words and the logs are those of `tools/bench times`. With `--with` the other program runs once
more, with these words before the subcommand. A row has the least time of the built program, and the
ratios of its time and of its memory to those of each other run. The last rows have the geometric
means. The exit status is 1 where two answer differently, and 2 where one is missing or fails.
"""

import collections
import shlex
import statistics

from benches.table import begin_table, print_row, rows, words_of_table
from command_line import built, say


def arguments():
    words = words_of_table(__doc__)
    words.add_argument("--with", dest="forms", action="append", default=[], metavar="WORDS")
    words.add_argument("other", metavar="PROGRAM")
    words.add_argument("logs", nargs="*", metavar="LOG")
    return words.parse_args()


def ratios(runs):
    """Of the first run to each other one: time and memory."""
    first, *others = runs
    for other in others:
        yield first.seconds / other.seconds
        yield first.peak / other.peak


def main():
    given = arguments()
    forms = [shlex.split(form) for form in ("", *given.forms)]
    programs = [[built(given.program)], *([built(given.other), *form] for form in forms)]
    names = [" ".join(form) or "the other" for form in forms]
    heads = [f"{what} to {name}" for name in names for what in ("Time", "Memory")]
    begin_table(given, ["Logs", "Question", "MB", "Workers", "Seconds", *heads])
    agree, found = True, collections.defaultdict(list)
    for cells, _, runs in rows(given, programs):
        agree = agree and len({run.digest for run in runs}) == 1
        found[cells[3]].append([*ratios(runs)])
        print_row([*cells, f"{runs[0].seconds:.3f}", *(f"{it:.2f}" for it in ratios(runs))])
    for workers, columns in found.items():
        means = (f"{statistics.geometric_mean(column):.2f}" for column in zip(*columns))
        print_row(["geometric mean", "", "", workers, "", *means])
    say("the same answers of all" if agree else "DIFFERENT answers")
    return 0 if agree else 1
