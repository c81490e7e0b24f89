"""Feeds the built program hostile streams, paths, limits, sizes and texts, and says what it saw.

    tools/stress hostile                         everything, in about two minutes
    tools/stress hostile --only texts --texts 20000 --seed 7
    tools/stress hostile --only sizes --bytes 67108864      logs of the full size, if memory allows

The parts are `streams`, `paths`, `memory`, `threads`, `files`, `sizes` and `texts`. Whatever the
program is fed, it must end by itself: with status 0 and the right answer on standard output, or
with a fault's text on standard error, the fault's status, and nothing on standard output; only a
failed write leaves a part of the right answer. Each line says what was tried and what came of it;
one that begins with `WRONG` says what should have come. The exit status is 1 where a line is
wrong, and 2 where there is no program.

Two things end the program by a signal, whatever it is fed, and are not tried: a limit on the size
of files that its output exceeds, and a stack of less than 192 KiB. 64 logs need 68 open files.
"""

import os
import pathlib
import resource
import tempfile

from command_line import Words, built, count, say
from stresses.fed_program import MIB, Tool
from stresses.limits import files, memory, threads
from stresses.paths import paths
from stresses.sizes import sizes
from stresses.streams import streams
from stresses.texts import texts

PARTS = {it.__name__: it for it in (streams, paths, memory, threads, files, sizes, texts)}


def arguments():
    words = Words(__doc__)
    words.add_program()
    words.add_argument("--only", action="append", choices=PARTS, help="a part; may be given again")
    words.add_argument(
        "--bytes", type=count, default=4 * MIB, help="bytes of each of 64 logs, by default 4 MiB"
    )
    words.add_argument(
        "--texts", type=count, default=1_000, help="how many hostile texts, by default 1,000"
    )
    words.add_argument("--seed", type=int, default=1, help="the seed of the texts, by default 1")
    return words.parse_args()


def main():
    given = arguments()
    given.program = pathlib.Path(built(given.program))
    say(f"the parts {', '.join(given.only or PARTS)}")
    resource.setrlimit(resource.RLIMIT_CORE, (0, 0))
    with tempfile.TemporaryDirectory() as folder:
        os.chmod(folder, 0o755)
        tool = Tool(given.program.resolve(), pathlib.Path(folder))
        more = {"sizes": [given.bytes], "texts": [given.texts, given.seed]}
        for part in given.only or PARTS:
            print(f"== {part}", flush=True)
            PARTS[part](tool, *more.get(part, []))
    print(f"tools/stress hostile: {', '.join(given.only or PARTS)}: {tool.wrong} wrong")
    return 1 if tool.wrong else 0
