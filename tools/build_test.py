"""The test of tools/build, which `tools/test build` runs. A module, and no tool itself.

It has a toolchain that proves nothing: `rt` waits as long as a crate costs on another scale,
refuses crates whose libraries are not there, and writes what the real one writes.
"""

import math
import os
import pathlib
import shutil
import signal
import subprocess
import sys
import tempfile
import time

from command_line import TOP, say
from crate_costs import Costs, files_of, lines_of
from proof_order import SPEED, Order, ways
from program_build import FAILED, all_below, crates_below

RT = """#!PYTHON -IS
import os, sys, time, zlib
crate, crates = os.path.basename(os.getcwd()), os.path.dirname(os.getcwd())
rows = [row.split(":") for row in open(crates + "/../crates.txt") if row.startswith("epx")]
uses = {row[0]: [it for it in row[1].split() if it.startswith("epx")] for row in rows}
stamps, whole = {}, {}
def stamp(crate):
    if crate not in stamps:
        text = b""
        for name in os.listdir(f"{crates}/{crate}/src"):
            text += open(f"{crates}/{crate}/src/{name}", "rb").read()
        stamps[crate] = str(zlib.crc32(repr((text, [stamp(it) for it in uses[crate]])).encode()))
    return stamps[crate]
def is_kept(crate):
    file = f"{crates}/{crate}/out/rlib/stamp"
    return os.path.exists(file) and open(file).read() == stamp(crate)
def is_whole(crate):
    if crate not in whole:
        whole[crate] = is_kept(crate) and all(map(is_whole, uses[crate]))
    return whole[crate]
def note(what):
    with open(os.environ["EVENTS"], "a") as events:
        print(what, crate, os.getpid(), time.monotonic(), file=events)
if not all(map(is_whole, uses[crate])):
    note("lacks")
    sys.exit(2)
if is_kept(crate):
    sys.exit(0)
note("begin")
os.makedirs("out/incremental", exist_ok=True)
open("out/incremental/half", "w").close()
print("so far: 1 of 2 functions checked", flush=True)
time.sleep(float(open(os.environ["WAITS"] + "/" + crate).read()))
if crate == os.environ.get("FAILS"):
    print("fn f: not proved")
    sys.exit(1)
os.makedirs(f"out/rlib/{crate}.rlib", exist_ok=True)
if os.path.exists("out/rlib/stamp"):
    os.remove("out/rlib/stamp")
open("out/rlib/stamp", "w").write(stamp(crate))
if sys.argv[1] == "run":
    open(f"out/{crate}", "w").write("#!/bin/sh\\necho ran $*\\n")
    os.chmod(f"out/{crate}", 0o755)
print("logic=proved functions=2", flush=True)
note("end")
"""
# The seconds of the best order of a build, and how much more an order may take.
SECONDS, MORE = 8, 1.1
FAILING, MANY = "epx_report", 100


class Trial:
    """A copy of the repository whose sources are blank lines, as many as there are, and what went
    wrong there."""

    def __init__(self, room):
        self.room, self.top, self.wrong, self.tried = room, room / "copy", 0, 0
        self.uses = crates_below("epx")
        below = all_below(self.uses)
        shutil.copytree(TOP / "tools", self.top / "tools")
        shutil.copytree(TOP / "share", self.top / "share")
        for name in ("epx", "crates.txt", "HANDLES"):
            shutil.copy(TOP / name, self.top)
        for crate in self.uses:
            self.make_crate(crate, sum(map(lines_of, files_of(TOP / "crates" / crate))))
        costs = Costs(self.top, below)
        self.costs = {crate: costs.of(crate) for crate in self.uses}
        self.have_memory_for(MANY)
        (room / "events").write_text("")
        (room / "bin").mkdir()
        (room / "bin/rt").write_text(RT.replace("PYTHON", sys.executable))
        (room / "bin/rt").chmod(0o755)

    def have_memory_for(self, jobs):
        """Has the tool find memory for so many jobs at a time."""
        text = (TOP / "tools/program_build.py").read_text()
        text = text.replace("def memory():\n", f"def memory():\n    return {jobs} * EACH\n")
        (self.top / "tools/program_build.py").write_text(text)

    def make_crate(self, crate, lines):
        name = "main.rt" if (TOP / "crates" / crate / "src/main.rt").exists() else "lib.rt"
        (self.top / "crates" / crate / "src").mkdir(parents=True)
        (self.top / "crates" / crate / "src" / name).write_text("\n" * lines)

    def set_waits(self, seconds, processors=4):
        """Sets how long each crate takes, so that the best order takes so many seconds."""
        scale = seconds / bound(self.uses, self.costs, processors)
        (self.room / "waits").mkdir(exist_ok=True)
        for crate in self.costs:
            (self.room / "waits" / crate).write_text(str(self.costs[crate] * scale))

    def forget(self):
        """Drops all that was proved."""
        for out in [self.top / "out", *self.top.glob("crates/*/out")]:
            shutil.rmtree(out, ignore_errors=True)

    def start(self, command=("tools/build",), **more):
        (self.room / "events").write_text("")
        env = {**os.environ, "PATH": f"{self.room}/bin:{os.environ['PATH']}", **more}
        env |= {"EVENTS": f"{self.room}/events", "WAITS": f"{self.room}/waits"}
        default = lambda: signal.signal(signal.SIGINT, signal.SIG_DFL)
        return subprocess.Popen(
            [self.top / command[0], *command[1:]], cwd=self.room, env=env, preexec_fn=default,
            stdin=subprocess.DEVNULL, stdout=subprocess.PIPE, stderr=subprocess.PIPE, text=True,
        )  # fmt: skip

    def call(self, *given, **more):
        """The status, the output and the complaints of a call, and its seconds."""
        began = time.monotonic()
        process = self.start(*given, **more)
        out, said = process.communicate(timeout=120)
        return process.returncode, out, said, time.monotonic() - began

    def events(self, what):
        """The times of such events, by crate."""
        rows = map(str.split, (self.room / "events").read_text().splitlines())
        return {row[1]: float(row[3]) for row in rows if row[0] == what}

    def most(self):
        """How many crates were proved at a time."""
        began, ended = self.events("begin"), self.events("end")
        spans = [(began[it], ended.get(it, math.inf)) for it in began]
        return max(sum(begin <= at < end for begin, end in spans) for at, _ in spans)

    def is_left(self):
        """What a build left that has ended: processes of `rt`, or copies."""
        rows = map(str.split, (self.room / "events").read_text().splitlines())
        for number in {row[2] for row in rows}:
            if runs(number):
                yield f"process {number} is left"
        if (self.top / "out/build").exists():
            yield "out/build is left"

    def check(self, what, **faults):
        """Notes what was tried, and what of it is wrong."""
        self.tried += 1
        wrong = [fault.replace("_", " ") for fault, is_so in faults.items() if is_so]
        wrong += self.is_left()
        if wrong:
            self.wrong += 1
            print(f"WRONG: {what}: {'; '.join(wrong)}", flush=True)


def start_of_process():
    """The seconds in which this machine starts and ends a process now, as busy as it is."""
    began = time.monotonic()
    for _ in range(3):
        subprocess.run([sys.executable, "-IS", "-c", ""], check=True)
    return (time.monotonic() - began) / 3


def runs(number):
    """Whether a process runs, half a second after it was ended at the latest."""
    for _ in range(5):
        try:
            state = pathlib.Path(f"/proc/{number}/stat").read_text().rsplit(")", 1)[1].split()[0]
        except OSError:
            return False
        if state == "Z":
            return False
        time.sleep(0.1)
    return True


def heads(uses, costs):
    """The seconds before which each crate cannot begin."""
    found, below = {}, all_below(uses)
    for crate in sorted(uses, key=lambda it: len(below[it])):
        found[crate] = max((found[it] + costs[it] for it in uses[crate]), default=0)
    return found


def bound(uses, costs, processors):
    """The seconds that no order of crates undercuts, where one is proved by one job: some of them
    begin after a head and end before a tail."""
    begins, found = heads(uses, costs), ways(uses, costs)
    tails, best = {it: found[it] - costs[it] for it in uses}, max(found.values())
    for head in set(begins.values()):
        for tail in set(tails.values()):
            inner = [costs[it] for it in uses if begins[it] >= head and tails[it] >= tail]
            best = max(best, head + sum(inner) / processors + tail if inner else 0)
    return best


def try_order(trial):
    """The order takes little more than the best one, by one job a crate and by several."""
    faults, gains = {}, dict(SPEED)
    for speeds in ({1: 1.0}, gains):
        SPEED.clear()
        SPEED.update(speeds)
        for processors in (1, 2, 3, 4, 8):
            order = Order(trial.uses, trial.costs, processors)
            best = bound(trial.uses, trial.costs, processors)
            is_slow = order.seconds_left(set(), {}, {}) > MORE * best
            faults[f"slow by {processors} processors and {max(SPEED)} jobs"] = is_slow
    trial.check("the order", **faults)


def try_whole(trial, processors):
    """Builds all from nothing. No crate begins before what it uses has ended."""
    trial.set_waits(SECONDS, processors)
    trial.forget()
    lag = 2 * start_of_process()
    status, out, said, took = trial.call(("epx", "run", "a"))
    began, ended = trial.events("begin"), trial.events("end")
    early = [it for it in began for used in trial.uses[it] if ended.get(used, math.inf) > began[it]]
    say(f"a build took {took:.1f} seconds, and the best order {SECONDS}")
    trial.check(
        "a build from nothing",
        it_failed=status,
        it_did_not_run=out != "ran run a\n",
        it_said_nothing="built" not in said,
        it_was_slow=took > MORE * SECONDS + lag * len(trial.uses),
        not_all_were_proved=set(began) != set(trial.uses),
        too_many_at_a_time=trial.most() > processors,
        one_came_too_early=early,
        one_lacked_a_library=trial.events("lacks"),
    )


def try_again(trial):
    """Builds where nothing, or one crate, has changed."""
    trial.set_waits(0.1)
    status, _, said, _ = trial.call()
    trial.check("a build after a build", it_failed=status, it_proved=trial.events("begin"),
                it_says_otherwise=" 0 crates" not in said)  # fmt: skip
    status, out, said, _ = trial.call(("epx", "run"))
    trial.check("a call of what is built", it_failed=status, it_said_something=said,
                it_did_not_run=out != "ran run\n")  # fmt: skip
    (trial.top / "crates/epx_tool/src/lib.rt").write_text("changed\n")
    status, *_ = trial.call(("epx", "run"))
    above = {"epx_tool", "epx_program", "epx"}
    trial.check("a build after a change", it_failed=status,
                others_were_proved=set(trial.events("begin")) != above)  # fmt: skip


def try_failing(trial):
    """Builds where one crate is not proved, where there is no `rt`, and where nothing can be
    written."""
    trial.set_waits(0.5)
    trial.forget()
    status, _, said, _ = trial.call(("epx",), FAILS=FAILING)
    last, log = said.splitlines()[-1], f"crates/{FAILING}/out/build.log"
    trial.check(
        "a crate that fails",
        its_status=status != FAILED,
        its_line=not all(it in last for it in (FAILING, "fn f: not proved", log)),
        no_log=not (trial.top / log).exists(),
    )
    trial.forget()
    (trial.room / "bin/rt").rename(trial.room / "rt")
    status, _, said, _ = trial.call(("epx",), PATH="/usr/bin:/bin")
    (trial.room / "rt").rename(trial.room / "bin/rt")
    is_wrong = status != FAILED or said.count("\n") != 1
    trial.check("no rt", its_status_or_line=is_wrong)
    (trial.top / "out").write_text("no folder")
    status, _, said, _ = trial.call()
    (trial.top / "out").unlink()
    is_wrong = status != FAILED or said.count("\n") != 1
    trial.check("no place for what is made", its_status_or_line=is_wrong)


def try_ended(trial, number):
    """Ends a build half-way by a signal. The next one does the rest."""
    trial.set_waits(2)
    trial.forget()
    process = trial.start(("epx", "run"))
    while len(trial.events("end")) < 5:
        time.sleep(0.01)
    began = time.monotonic()
    process.send_signal(number)
    said = process.communicate()[1]
    took, faults = time.monotonic() - began, {}
    if number == signal.SIGKILL:
        # only the next build can put back what this one made
        faults["it_left_a_process"] = any("process" in it for it in trial.is_left())
    else:
        kept = len([*trial.top.glob("crates/*/out/incremental/half")])
        faults["it_left_something"] = [*trial.is_left()]
        faults["half_was_lost"] = kept != len(trial.events("begin"))
    before = set(trial.events("end"))
    wanted = -number if number == signal.SIGKILL else 128 + number
    status, out, *_ = trial.call(("epx", "run"))
    trial.check(
        f"a build that {number.name} ended",
        its_status=process.returncode != wanted,
        it_was_slow=took > 1 + 20 * start_of_process(),
        a_traceback="Traceback" in said,
        next_failed=status,
        next_did_not_run=out != "ran run\n",
        next_did_not_do_the_rest=set(trial.events("begin")) != set(trial.uses) - before,
        **faults,
    )


def try_added(trial):
    """Builds with a crate that only crates.txt names."""
    trial.set_waits(0.1)
    file = trial.top / "crates.txt"
    file.write_text(file.read_text().replace("\nepx: ", "\nepx_more: epx_types\nepx: epx_more "))
    trial.make_crate("epx_more", 7)
    (trial.room / "waits/epx_more").write_text("0")
    status, *_ = trial.call()
    trial.check("a crate that is added", it_failed=status,
                others_were_proved=set(trial.events("begin")) != {"epx_more", "epx"})  # fmt: skip


def try_little_memory(trial):
    """Builds where there is memory for two jobs."""
    trial.set_waits(1)
    trial.forget()
    trial.have_memory_for(2)
    status, *_ = trial.call()
    trial.have_memory_for(MANY)
    trial.check("a build with little memory", it_failed=status, too_many_at_a_time=trial.most() > 2)


def test(_program, _seed):
    """Tries tools/build with a toolchain that only waits."""
    say("builds with a toolchain that only waits, in less than a minute")
    memory = "/dev/shm" if os.path.isdir("/dev/shm") else None
    with tempfile.TemporaryDirectory(prefix="epx-build-", dir=memory) as room:
        trial = Trial(pathlib.Path(room))
        try_order(trial)
        try_whole(trial, len(os.sched_getaffinity(0)))
        try_again(trial)
        try_failing(trial)
        for number in (signal.SIGINT, signal.SIGTERM, signal.SIGKILL):
            try_ended(trial, number)
        try_added(trial)
        try_little_memory(trial)
    print(f"tools/build: {trial.tried} builds tried, {trial.wrong} of them wrong")
    return 1 if trial.wrong else 0
