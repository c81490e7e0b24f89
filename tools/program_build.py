"""Proves the crates on which the program rests, several at a time, and builds it. A module, and no
tool."""

import contextlib
import fcntl
import functools
import os
import pathlib
import queue
import re
import signal
import sys
import threading
import time

from command_line import PROGRAM, TOP, say, say_for_now, stop
from crate_costs import Costs
from crates import crates_of
from proof_copies import Copies
from proof_order import SPEED, Order

# The status where the program cannot be built, which no answer and no fault of epx has.
FAILED = 70
# The memory that a job may take, in bytes, and the seconds until it has most of it.
EACH, GROWN = 2_500_000_000, 60
# The seconds between two lines that say how far it is, where each stays.
OFTEN = 60
# What each job of a crate after the first adds to the processor time of one job.
MORE = 0.2


def crates_below(program):
    """The crates on which a program rests, itself included, with those that each of them uses."""
    every, found, more = crates_of(TOP)[1], {}, [program]
    while more:
        crate = more.pop()
        found[crate] = {it for it in every[crate] if it in every}
        more += found[crate] - set(found)
    return {crate: found[crate] for crate in sorted(found)}


def all_below(uses):
    """All crates on which each crate rests."""
    @functools.cache
    def below(crate):
        return uses[crate].union(*map(below, uses[crate]))

    return {crate: sorted(below(crate)) for crate in uses}


def memory():
    """The bytes of memory that are free for new processes."""
    text = pathlib.Path("/proc/meminfo").read_text()
    return 1024 * int(re.search(r"^MemAvailable: *(\d+)", text, re.M)[1])


def about(seconds):
    minutes = round(seconds / 60)
    return f"about {minutes} minutes" if minutes > 1 else "about a minute"


class Proof:
    """A crate that is being proved."""

    def __init__(self, process, jobs, is_new):
        self.process, self.jobs, self.is_new = process, jobs, is_new
        self.began = time.monotonic()

    def passed(self):
        return time.monotonic() - self.began


class Build:
    """The crates that are proved, and those that are being proved."""

    def __init__(self):
        self.uses = crates_below("epx")
        below = all_below(self.uses)
        self.costs, self.copies = Costs(TOP, below), Copies(TOP, below)
        seconds = {crate: self.costs.of(crate) for crate in self.uses}
        self.order = Order(self.uses, seconds, len(os.sched_getaffinity(0)))
        self.done, self.running, self.anew, self.ended = set(), {}, 0, queue.SimpleQueue()
        self.began = self.said = time.monotonic()
        # the seconds that the proofs took, and those that were planned for them
        self.took = self.planned = 0

    def seconds_left(self):
        jobs = {crate: proof.jobs for crate, proof in self.running.items()}
        passed = {crate: proof.passed() for crate, proof in self.running.items()}
        pace = self.took / self.planned if self.planned > GROWN else 1
        return pace * self.order.seconds_left(self.done, jobs, passed)

    def all(self):
        """Proves and builds all."""
        say(f"proves and builds the program, in {about(self.seconds_left())}")
        say("tools/try answers without a proof, in minutes the first time and at once after that")
        try:
            self.time = self.copies.begin()
            while len(self.done) < len(self.uses):
                self.begin_more()
                self.show()
                with contextlib.suppress(queue.Empty):
                    self.end(*self.ended.get(timeout=1))
        finally:
            self.stop()
        if not PROGRAM.is_file():
            stop(f"{PROGRAM} was not made", FAILED)
        # a source that was changed meanwhile is newer
        os.utime(PROGRAM, (self.time, self.time))
        took = about(time.monotonic() - self.began)
        say(f"built crates/epx/out/epx in {took}, for which {self.anew} crates were proved")

    def begin_more(self):
        """Begins crates while there are processors and memory for them."""
        while True:
            jobs = {crate: proof.jobs for crate, proof in self.running.items()}
            chosen = self.order.next(self.done, jobs)
            young = sum(it.jobs for it in self.running.values() if it.passed() < GROWN)
            room = memory() // EACH - young
            if chosen is None or self.running and room < 1:
                return
            crate, jobs = chosen[0], max(1, min(chosen[1], room))
            is_new = self.copies.is_new(crate)
            process = self.copies.start(crate, jobs)
            self.running[crate] = Proof(process, jobs, is_new)
            watch = threading.Thread(target=self.watch, args=(crate, process.pid), daemon=True)
            watch.start()

    def watch(self, crate, number):
        """Waits until a proof has ended, and hands on its status and the time that it took."""
        _, status, used = os.wait4(number, 0)
        seconds = used.ru_utime + used.ru_stime
        self.ended.put((crate, os.waitstatus_to_exitcode(status), seconds))

    def end(self, crate, status, seconds):
        """Notes that a proof has ended, and ends the build where it failed."""
        proof = self.running.pop(crate)
        proof.process.returncode = status
        self.copies.put_back(crate)
        if status:
            log = self.copies.log(crate).relative_to(TOP)
            stop(f"{crate} failed: {self.copies.fault(crate)}; the log is {log}", FAILED)
        self.copies.share(crate)
        self.done.add(crate)
        is_anew = self.copies.is_proved_anew(crate)
        if is_anew:
            self.anew += 1
            self.took += proof.passed()
            self.planned += self.order.costs[crate] / SPEED[proof.jobs]
        cost = seconds / (1 + MORE * (proof.jobs - 1)) if is_anew and proof.is_new else None
        self.costs.note(crate, self.time, cost)
        if not sys.stderr.isatty() and is_anew:
            self.said = 0

    def show(self):
        """Says how far the build is, each second on a terminal, and else now and then."""
        now = time.monotonic()
        if sys.stderr.isatty() or now - self.said >= OFTEN:
            self.said = now
            proving = [f"{it} {self.copies.so_far(it)}".strip() for it in self.running]
            far = f"{len(self.done)} of {len(self.uses)} crates, {about(self.seconds_left())} left"
            say_for_now(f"{far}: {', '.join(proving)}" if proving else far)

    def stop(self):
        """Ends what still runs, puts back what it proved, and removes the copies."""
        for number in (signal.SIGTERM, signal.SIGKILL):
            for proof in self.running.values():
                with contextlib.suppress(ProcessLookupError):
                    os.kill(proof.process.pid, number)
            end = time.monotonic() + 3
            while self.running and time.monotonic() < end:
                with contextlib.suppress(queue.Empty):
                    crate, status, _ = self.ended.get(timeout=0.1)
                    self.running.pop(crate).process.returncode = status
        self.copies.end()


@contextlib.contextmanager
def alone():
    """Waits until no other build works in this repository."""
    (TOP / "out").mkdir(exist_ok=True)
    lock = os.open(TOP / "out", os.O_RDONLY)
    try:
        fcntl.flock(lock, fcntl.LOCK_EX | fcntl.LOCK_NB)
    except BlockingIOError:
        say("another build works here; waits for it")
        fcntl.flock(lock, fcntl.LOCK_EX)
    try:
        yield
    finally:
        os.close(lock)
