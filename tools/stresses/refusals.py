"""Refuses each allocation of tests, of worked cases, and of the program over the examples, one a
run.

    tools/stress refusals                      all crates of tests, worked cases, and the program
    tools/stress refusals --crate epx_cases    worked cases; those of any script with --script FILE
    tools/stress refusals --crate epx_calls    the tests of a crate (the program is the crate `epx`)
    tools/stress refusals --crate epx_calls --test store --most 1000
    tools/stress refusals --crate epx_calls --test store_holds --at 17    one run, and its output

A library that is loaded before the C library counts what the program asks it for, and refuses the
Nth. First it counts a run without a refusal; then N goes from 1 upwards until runs meet no
refusal. The threads of a run share its work anew each time, so a sweep goes on until three runs
in a row have met none. Where a test asks more often than `--most` allows, the first half of the
runs are at N = 1, 2, .. and the rest are spread over the others.

A run ends well, or out of memory, or otherwise, and each that ends otherwise is listed. Of a
test, out of memory is an `Err` of the words below; of the program, it is fault 1, with status 3
and nothing on standard output; of a worked case, that its text is the line of fault 1, or that
the script could not be read.

The test programs are what `rt test` leaves in crates/NAME/out, and the programs what `rt run`
leaves there. With `--build` those that are missing, or older than a source, are built first. The
exit status is 1 where a run ended otherwise, and 2 where something is not there.
"""

import concurrent.futures
import dataclasses
import pathlib
import resource
import sys
import tempfile
import time

from command_line import TOP, Words, count, say
from stresses.refused_cases import Case, cases_of
from stresses.refused_outcomes import outcome
from stresses.refused_runs import Runner


@dataclasses.dataclass
class Swept:
    """How the runs of a case ended."""

    case: Case
    asked: int = 0
    well: int = 0
    memory: int = 0
    other: list = dataclasses.field(default_factory=list)
    is_cut_off: bool = False

    def add(self, at, ended, how):
        """Counts a run; one that met no refusal counts where it ended otherwise alone."""
        if how == "other":
            self.other.append((at, ended))
        elif how == "memory":
            self.memory += 1
        elif ended.is_refused:
            self.well += 1


def points(asked, most):
    """Which allocations are refused: all, and three past the last, or as many as are allowed, as
    the top says."""
    if asked + 3 <= most:
        return range(1, asked + 1_000)
    half = most // 2
    rest = most - half
    return [
        *range(1, half + 1),
        *(half + 1 + place * (asked - half) // rest for place in range(rest)),
    ]


def sweep(runner, case, most, seconds):
    """Runs the case with one allocation refused after another, for at most so many runs and
    seconds."""
    swept, ends, unmet = Swept(case), time.monotonic() + seconds, 0
    whole = runner.run(case, 0)
    if outcome(case, whole) != "well":
        swept.other.append((0, whole))
        return swept
    swept.asked = whole.asked
    swept.is_cut_off = whole.asked + 3 > most
    for at in points(whole.asked, most):
        if time.monotonic() > ends or runner.is_ended:
            swept.is_cut_off = True
            break
        swept.add(at, ended := runner.run(case, at), outcome(case, ended))
        unmet = 0 if ended.is_refused else unmet + 1
        if unmet == 3:
            break
    return swept


def show_one(runner, case, at):
    """One run, and what it says."""
    ended = runner.run(case, at)
    said = "met the refusal" if ended.is_refused else "met no refusal"
    print(
        f"{case.crate} {case.name} at {at}: {outcome(case, ended)}, status {ended.status}, {said}",
        flush=True,
    )
    sys.stdout.buffer.write(ended.out + ended.err)


def show(swept):
    """The line of a case."""
    case, more = swept.case, " cut off" if swept.is_cut_off else ""
    counts = f"{swept.asked:>8}{swept.well:>7}{swept.memory:>8}{len(swept.other):>7}"
    print(f"{counts}  {case.crate} {case.name}{more}", flush=True)


def show_others(all_swept):
    """The runs that ended otherwise, each with the first line of what it said, and the sums."""
    for swept in all_swept:
        for at, ended in swept.other:
            said = ended.err.decode(errors="replace").partition("\n")[0]
            print(
                f"otherwise: {swept.case.crate} {swept.case.name} at {at}: "
                f"status {ended.status}: {said}"
            )
    well, memory = sum(it.well for it in all_swept), sum(it.memory for it in all_swept)
    other, cut = sum(len(it.other) for it in all_swept), sum(it.is_cut_off for it in all_swept)
    parts = f"{well} refusals that ended well, {memory} out of memory, {other} otherwise"
    print(f"tools/stress refusals: {len(all_swept)} cases, {cut} of them in part: {parts}")
    return other


def arguments():
    words = Words(__doc__)
    words.add_argument(
        "--crate", action="append", default=[], help="a crate of tests, or epx; may be given again"
    )
    words.add_argument("--test", default="", help="the cases whose names have this text")
    words.add_argument(
        "--script", type=pathlib.Path, help="the script whose worked cases are swept"
    )
    words.add_argument(
        "--at", type=int, help="one run of each case, with this allocation refused (0: none)"
    )
    words.add_argument(
        "--most", type=count, default=300, help="refusals a case at most, by default 300"
    )
    words.add_argument(
        "--seconds", type=count, default=30, help="time a case at most, by default 30"
    )
    words.add_argument("--jobs", type=count, default=2, help="cases side by side, by default 2")
    words.add_argument(
        "--built", type=pathlib.Path, default=TOP, help="the top of the repository that was built"
    )
    words.add_argument("--build", action="store_true", help="build what is missing or old")
    return words.parse_args()


def main():
    given = arguments()
    resource.setrlimit(resource.RLIMIT_CORE, (0, 0))
    cases = cases_of(given.built.resolve(), given)
    with tempfile.TemporaryDirectory() as folder:
        runner = Runner(pathlib.Path(folder), 120)
        if given.at is not None:
            for case in cases:
                show_one(runner, case, given.at)
            return 0
        say(f"{len(cases)} cases, each for up to {given.seconds} seconds")
        print("   asked   well  memory  other", flush=True)
        all_swept = []
        with concurrent.futures.ThreadPoolExecutor(given.jobs) as pool:
            try:
                for swept in pool.map(
                    lambda case: sweep(runner, case, given.most, given.seconds), cases
                ):
                    show(swept)
                    all_swept.append(swept)
            finally:
                runner.end()
    return 1 if show_others(all_swept) else 0
