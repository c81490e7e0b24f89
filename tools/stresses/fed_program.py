"""The program that is fed, how a run of it ended, and what was wrong so far."""

import dataclasses
import os
import re
import resource
import shutil
import subprocess
import tempfile
import threading
import time

from stresses.lines import CAN_NOT_WRITE, OUT_OF_MEMORY

MIB = 1 << 20
# An account that nobody has, for limits that do not hold for the superuser.
NOBODY = 54_321
LEAST = b'{"r":0,"i":0,"seq":1,"deps":[],"ops":[["put","a",5],["get","a"]]}\n'
LEAST_REPORT = (
    b'["executed",1,"waiting",0,"components",1]\n["reply",0,0,"ok",[5]]\n["store","a",5]\n'
)
NOTHING = b'["executed",0,"waiting",0,"components",0]\n'
# Each fault's text and status.
FAULTS = [
    (OUT_OF_MEMORY, 3),
    (rb"epx: fault 2: more than 64 logs\n", 1),
    (rb"epx: fault 3: log \d+ is longer than 67108864 bytes\n", 1),
    (
        rb"epx: fault 4: log \d+ line \d+: "
        rb"(TooLong|NotJson|NotObject|Replica|Number|Seq|Status|Deps|Ops)\n",
        1,
    ),
    (rb"epx: fault 5: more than 1048576 instances\n", 1),
    (
        rb"epx: fault 6: instance \d+\.\d+ differs between log \d+ line \d+ and log \d+ line \d+\n",
        1,
    ),
    (rb"epx: fault 7: log \d+ can not be read\n", 4),
    (CAN_NOT_WRITE, 4),
]


@dataclasses.dataclass
class Ended:
    """How a run ended: its status (of a signal its negative), what it wrote, its peak memory in
    bytes, its time."""

    status: int
    out: bytes
    err: bytes
    peak: int
    seconds: float

    def come_to(self):
        """The three that an answer is."""
        return self.status, self.out, self.err

    def __str__(self):
        said = self.err.decode(errors="replace").strip()[:90]
        return f"status {self.status}, {len(self.out)} bytes" + (f", {said}" if said else "")


def can_not_read(log):
    """What comes where a log can not be read."""
    return 4, b"", b"epx: fault 7: log %d can not be read\n" % log


def is_fault(ended):
    """Whether it is a fault's text with its status, and nothing written."""
    return not ended.out and any(
        ended.status == it and re.fullmatch(text, ended.err) for text, it in FAULTS
    )


class Tool:
    """The program, the folder that hostile files are made in, and what was wrong so far."""

    def __init__(self, program, folder):
        self.program, self.folder, self.wrong = folder / "epx", folder, 0
        shutil.copy(program, self.program)
        self.least = self.file("least.jsonl", LEAST)
        self.large, self.large_report = self.large_log()

    def file(self, name, data):
        """A file of these bytes."""
        path = self.folder / name
        path.write_bytes(data)
        path.chmod(0o644)
        return path

    def large_log(self):
        """A log whose report fills several pipes, and its report."""
        line = '{"r":0,"i":%d,"seq":1,"deps":[],"ops":[["put","key %05d",%d]]}\n'
        log = self.file(
            "large.jsonl", "".join(line % (it, it, it) for it in range(20_000)).encode()
        )
        report = '["executed",20000,"waiting",0,"components",20000]\n'
        report += "".join(f'["reply",0,{it},"ok",[]]\n' for it in range(20_000))
        report += "".join(f'["store","key {it:05}",{it}]\n' for it in range(20_000))
        return log, report.encode()

    def run(self, words, seconds=120, **how):
        """Runs the program over files and streams as Popen takes them; what it writes elsewhere
        is not known."""
        with tempfile.TemporaryFile() as out, tempfile.TemporaryFile() as err:
            how = {
                "stdin": subprocess.DEVNULL,
                "stdout": out,
                "stderr": err,
                "cwd": self.folder,
            } | how
            began = time.monotonic()
            process = subprocess.Popen([self.program, *words], **how)
            timer = threading.Timer(seconds, process.kill)
            timer.start()
            try:
                _, status, usage = os.wait4(process.pid, 0)
            except BaseException:
                process.kill()
                process.wait()
                raise
            finally:
                timer.cancel()
            process.returncode = os.waitstatus_to_exitcode(status)
            out.seek(0), err.seek(0)
            took = time.monotonic() - began
            return Ended(process.returncode, out.read(), err.read(), usage.ru_maxrss * 1024, took)

    def say(self, what, ended, is_right, wanted="a fault's text, its status, and no output"):
        """A line on what was tried, and whether it is right."""
        if is_right:
            print(f"ok     {what}: {ended}", flush=True)
        else:
            self.wrong += 1
            print(f"WRONG  {what}: {ended}; wanted {wanted}", flush=True)

    def comes_to(self, what, words, wanted, **how):
        """One run, and whether its status, output and error are these."""
        ended = self.run(words, **how)
        self.say(
            what,
            ended,
            ended.come_to() == wanted,
            f"status {wanted[0]}, {wanted[2] or wanted[1][:60]}",
        )


def as_nobody(*limits):
    """Leaves the superuser's account if it is that, and sets limits."""

    def leave():
        if os.getuid() == 0:
            os.setgroups([])
            os.setgid(NOBODY)
            os.setuid(NOBODY)
        for what, most in limits:
            resource.setrlimit(what, (most, most))

    return leave
