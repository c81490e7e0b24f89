"""Times the built program over logs of several shapes.

    tools/bench times                                every shape, with one worker and with four
    tools/bench times --shapes chain,ring --rounds 11
    tools/bench times --instances 1048576            larger logs
    tools/bench times --questions order,audit LOG..  these logs, in place of the shapes

A row has the least time of its rounds, its ratio to the first row of as many workers, and the peak
memory for each byte of the logs. Where several questions are asked, it is the first row of the same
logs, and they are asked alternately. Only ratios of one run count; run nothing else beside it.

`check` is given the execution order, `linear` a call of each executed instance with its reply,
`resume` the report of the first half of the lines, `follow` the logs in batches of 100, `why` the
first instance of the logs, and `trace` a key of it. The shapes `ordinary` and `colliding` differ in
their Ids and keys alone: those of the second have one hash under the library's hasher where it
starts from its fixed number. The exit status is 2 where the program is missing or fails.
"""

from benches.runs import ratio
from benches.table import begin_table, print_row, rows, words_of_table
from command_line import built

HEADS = "Logs", "Question", "MB", "Workers", "Seconds", "Ratio", "Bytes a byte"


def main():
    words = words_of_table(__doc__)
    words.add_argument("logs", nargs="*", metavar="LOG")
    given, firsts = words.parse_args(), {}
    begin_table(given, HEADS)
    for cells, size, [run] in rows(given, [[built(given.program)]]):
        name, _, _, workers = cells
        first = firsts.setdefault((name if len(given.questions) > 1 else None, workers), run)
        times = f"{run.seconds:.3f}", ratio(run, first), f"{run.peak / size:.1f}"
        print_row([*cells, *times])
    return 0
