"""Standard streams that are terminals, closed, full, folders, broken pipes, or do not wait."""

import os
import pty
import subprocess

from stresses.fed_program import LEAST, LEAST_REPORT, MIB, NOTHING, can_not_read
from stresses.lines import CAN_NOT_WRITE

FROM_TERMINAL = (
    b"epx: reading one log from this terminal, up to Ctrl-D; epx --help has the subcommands\n"
)
NO_LOG = b"epx: no LOG is named, so no log is read; the LOG - is standard input\n"


def closing(*streams):
    """Closes these of the standard streams before the program begins."""

    def close():
        for stream in streams:
            os.close(stream)

    return close


def closed_streams(tool):
    """Standard streams that are closed; a log that is opened in place of one stays as it is."""
    report = (0, LEAST_REPORT, b"")
    tool.comes_to(
        "standard input is closed, and not asked for",
        ["run", tool.least],
        report,
        preexec_fn=closing(0),
    )
    tool.comes_to("standard input is closed", [], can_not_read(0), preexec_fn=closing(0))
    words = ["run", tool.least, "-"]
    tool.comes_to(
        "standard input is closed behind a log", words, can_not_read(1), preexec_fn=closing(0)
    )
    tool.comes_to("standard error is closed", ["run", tool.least], report, preexec_fn=closing(2))
    fault = tool.run(["run", "nowhere"], preexec_fn=closing(2))
    tool.say("standard error is closed, and a fault", fault, (fault.status, fault.out) == (4, b""))
    for streams in ((1,), (0, 1), (0, 1, 2)):
        ended = tool.run(["run", tool.least, tool.least], preexec_fn=closing(*streams))
        is_same = tool.least.read_bytes() == LEAST
        tool.say(
            f"closed streams {streams}", ended, ended.status == 4 and not ended.out and is_same
        )


def full_streams(tool):
    """Streams that take nothing, or give none."""
    with open("/dev/full", "wb") as full, open("/dev/full", "wb") as also:
        wanted = 4, b"", CAN_NOT_WRITE
        tool.comes_to("standard output is full", ["run", tool.least], wanted, stdout=full)
        tool.comes_to(
            "standard output is full, and a long report", ["run", tool.large], wanted, stdout=full
        )
        ended = tool.run(["run", "nowhere"], stderr=full)
        tool.say("standard error is full", ended, ended.status == 4 and not ended.out)
        ended = tool.run(["run", tool.least], stdout=full, stderr=also)
        tool.say("both are full", ended, ended.status == 4)
    folder = os.open(tool.folder, os.O_RDONLY)
    tool.comes_to("standard input is a folder", [], can_not_read(0), stdin=folder)
    os.close(folder)


def read_later(end, into):
    """Reads all that is in a pipe, without waiting."""
    os.set_blocking(end, False)
    while True:
        try:
            part = os.read(end, MIB)
        except BlockingIOError:
            return
        if not part:
            return
        into.append(part)


def pipes_that_do_not_wait(tool):
    """Pipes that answer that there is nothing, or no room, in place of waiting."""
    ours, theirs = os.pipe()
    os.set_blocking(ours, False)
    tool.comes_to("an empty pipe that does not wait", [], can_not_read(0), stdin=ours)
    os.write(theirs, LEAST)
    os.close(theirs)
    tool.comes_to("a pipe that does not wait, and has all", [], (0, LEAST_REPORT, b""), stdin=ours)
    os.close(ours)
    ours, theirs = os.pipe()
    os.set_blocking(theirs, False)
    ended, parts = tool.run(["run", tool.large], stdout=theirs), []
    read_later(ours, parts)
    taken = b"".join(parts)
    is_right = (ended.status, ended.err) == (4, CAN_NOT_WRITE) and tool.large_report.startswith(
        taken
    )
    tool.say(
        f"a pipe that does not wait, and took {len(taken)} bytes",
        ended,
        is_right,
        "fault 8 and a part",
    )
    os.close(ours), os.close(theirs)


def broken_pipes(tool):
    """Readers that leave after the first line: the write fails, also where the signal would end
    another program."""
    for restores, said in ((True, "is not ignored"), (False, "is ignored")):
        ours, theirs = os.pipe()
        reader = subprocess.Popen(["head", "-n", "1"], stdin=ours, stdout=subprocess.PIPE)
        os.close(ours)
        ended = tool.run(["run", tool.large], stdout=theirs, restore_signals=restores)
        os.close(theirs)
        first = reader.communicate()[0]
        is_right = ended.status == 4 and first == tool.large_report.partition(b"\n")[0] + b"\n"
        tool.say(
            f"a broken pipe, whose signal {said} at first",
            ended,
            is_right,
            "status 4, and the first line",
        )


def named_inputs(tool):
    """What the program says on standard error where a person may expect that something else is
    read; the answers are the same."""
    ours, theirs = pty.openpty()
    os.write(ours, LEAST + b"\x04")
    tool.comes_to("one log from a terminal", [], (0, LEAST_REPORT, FROM_TERMINAL), stdin=theirs)
    os.close(ours), os.close(theirs)
    for words, wanted in (
        (["run"], (0, NOTHING, NO_LOG)),
        (["run", "-"], (0, LEAST_REPORT, b"")),
        (["-"], (0, LEAST_REPORT, b"")),
        (["run", tool.least], (0, LEAST_REPORT, b"")),
    ):
        ours, theirs = os.pipe()
        os.write(theirs, LEAST)
        os.close(theirs)
        tool.comes_to(f"a pipe, and the words {words[:1]}", words, wanted, stdin=ours)
        os.close(ours)
    tool.comes_to("no log, and no pipe", ["run"], (0, NOTHING, NO_LOG))


def streams(tool):
    named_inputs(tool)
    closed_streams(tool)
    full_streams(tool)
    pipes_that_do_not_wait(tool)
    broken_pipes(tool)
