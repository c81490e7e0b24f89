"""Times the program over logs of a shape, and over 16 times as many instances of it.

    tools/bench growth                               four shapes, 65,536 and 1,048,576 instances
    tools/bench growth --questions run,order,audit
    tools/bench growth --shapes chain --instances 4096 --rounds 11

A row has the least times of its rounds, how many times as much time and memory the larger logs
take, which is 16 where it is linear, and the memory for each byte of these. The exit status is 2
where the program is missing or fails.
"""

from benches.runs import ratio
from benches.table import begin_table, print_row, rows_of_shape, words_of_table
from command_line import built

TIMES = 16
SHAPES = ["independent", "chain", "ring", "16-deps"]
HEADS = ("Logs", "Question", "Workers", "Seconds", "16 times as many", "Time", "Memory",
         "Bytes a byte")  # fmt: skip


def print_rows(given, programs, name):
    """Prints the rows of a shape."""
    counts = given.instances, TIMES * given.instances
    few, many = ([*rows_of_shape(given, programs, name, count)] for count in counts)
    for ((_, question, _, workers), _, [run]), (_, size, [large]) in zip(few, many):
        times = f"{run.seconds:.3f}", f"{large.seconds:.3f}", ratio(large, run)
        memory = f"{large.peak / run.peak:.1f}", f"{large.peak / size:.1f}"
        print_row([name, question, workers, *times, *memory])


def main():
    words = words_of_table(__doc__)
    words.set_defaults(shapes=SHAPES, rounds=3, logs=None)
    given = words.parse_args()
    programs = [[built(given.program)]]
    begin_table(given, HEADS)
    for name in given.shapes:
        print_rows(given, programs, name)
    return 0
