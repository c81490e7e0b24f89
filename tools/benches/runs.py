"""Runs of a program: their time, their memory and what they print, and the least of several."""

import dataclasses
import hashlib
import os
import pathlib
import signal
import subprocess
import sys

from command_line import stop

ONE_RUN = str(pathlib.Path(__file__).with_name("one_run.py"))


@dataclasses.dataclass
class Run:
    """The seconds, the peak bytes, and the hash and the first line of what was printed."""

    seconds: float
    peak: int
    digest: bytes
    first_line: bytes


def run_once(words, out, limit=None):
    """A run, whose output goes to the file `out`. None where it took longer than the limit in
    seconds."""
    helper = [sys.executable, "-I", "-S", ONE_RUN, out, str(limit or 0), *words]
    process = subprocess.Popen(helper, stdout=subprocess.PIPE, start_new_session=True)
    try:
        seconds, peak, status = process.communicate()[0].split()
    except BaseException:
        # the helper and the program
        os.killpg(process.pid, signal.SIGKILL)
        process.wait()
        raise
    seconds, status = float(seconds), int(status)
    if limit and status == -signal.SIGKILL and seconds >= limit:
        return None
    if status != 0:
        stop(f"{' '.join(words[:4])} .. ended with {status}")
    with open(out, "rb") as text:
        digest = hashlib.file_digest(text, "sha256").digest()
        text.seek(0)
        return Run(seconds, int(peak), digest, text.readline())


def least_of(runs):
    """The least time and the least peak of some runs, and what the last of them printed."""
    seconds, peak = (min(getattr(run, name) for run in runs) for name in ("seconds", "peak"))
    return dataclasses.replace(runs[-1], seconds=seconds, peak=peak)


def least_runs(commands, rounds, out, limit=None):
    """The least of each command, run alternately. None where one took longer than the limit."""
    seen = [[] for _ in commands]
    for _ in range(rounds):
        for words, runs in zip(commands, seen):
            # a command that was ended once is not tried again
            if None not in runs:
                runs.append(run_once(words, out, limit))
    return [None if None in runs else least_of(runs) for runs in seen]


def ratio(run, base):
    """How many times as long a run took as another one, as a cell of a table."""
    return f"{run.seconds / base.seconds:.2f}"
