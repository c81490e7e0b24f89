"""Folders, links to themselves, names that are too long, devices, pipes, 65 logs and others."""

import os
import threading

from stresses.fed_program import LEAST, LEAST_REPORT, NOTHING, as_nobody, can_not_read


def paths_that_can_not_be_read(tool):
    """Each is a fault of the second log, whatever comes after it."""
    looped, locked = tool.folder / "looped", tool.file("locked", LEAST)
    looped.symlink_to(looped)
    locked.chmod(0)
    cases = [
        ("a folder", tool.folder),
        ("nothing", "nowhere"),
        ("an empty path", ""),
        ("a path of 6,000 bytes", "a/" * 3_000),
        ("a name of 300 bytes", "a" * 300),
        ("a link to itself", looped),
        ("a file below a file", f"{tool.least}/a"),
        ("memory that is not there", "/proc/self/mem"),
        ("a file without permission", locked),
    ]
    for what, path in cases:
        wanted = can_not_read(1)
        tool.comes_to(what, ["run", tool.least, path, "nowhere"], wanted, preexec_fn=as_nobody())


def write_into(path, data):
    """Writes into a pipe with a name, once the program opens it."""

    def write():
        with open(path, "wb") as pipe:
            pipe.write(data)

    writer = threading.Thread(target=write, daemon=True)
    writer.start()
    return writer


def paths_that_are_no_files(tool):
    """Pipes with names, and devices."""
    pipe = tool.folder / "pipe"
    os.mkfifo(pipe)
    for what, data, report in (("a log", LEAST, LEAST_REPORT), ("nothing", b"", NOTHING)):
        writer = write_into(pipe, data)
        tool.comes_to(f"a pipe with a name that gives {what}", ["run", pipe], (0, report, b""))
        writer.join(10)
    tool.comes_to("the null device", ["run", "/dev/null"], (0, NOTHING, b""))
    too_long = 1, b"", b"epx: fault 3: log 1 is longer than 67108864 bytes\n"
    tool.comes_to("a device without end", ["run", tool.least, "/dev/zero"], too_long)


def paths(tool):
    paths_that_can_not_be_read(tool)
    paths_that_are_no_files(tool)
    tool.comes_to("one log 64 times", ["run", *[tool.least] * 64], (0, LEAST_REPORT, b""))
    tool.comes_to(
        "65 logs", ["run", *["nowhere"] * 65], (1, b"", b"epx: fault 2: more than 64 logs\n")
    )
    ended = tool.run(["run", b"\xff"])
    tool.say(
        "a path that is not UTF-8",
        ended,
        ended.status == 2 and not ended.out and ended.err,
        "status 2",
    )
