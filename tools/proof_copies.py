"""Proves crates with the toolchain, in copies of the repository. A module, and no tool.

Two commands of the toolchain in one copy wait for each other, since each locks the folders of its
crate and of those below. So crates that are proved at a time are in several copies. All that is
known of the toolchain's files is here. `tools/test build-kit` says what of it a new toolchain
has changed:

- A crate's folder `out` has all that was proved of it, and counts in another copy too.
- There `rlib` is the library, which alone the crates above read. A new one replaces its files and
  changes none, so that copies can share them.
- A program is `out/NAME`.
- A line that begins with `logic=proved` says that a crate was proved just now. `so far: N of M
  functions` says how far a proof is.
"""

import ctypes
import itertools
import os
import pathlib
import re
import shutil
import signal
import subprocess
import time

LIBRARY = "rlib"
PROVED = re.compile(r"^logic=proved ", re.M)
SO_FAR = re.compile(r"^so far: (\d+ of \d+) functions", re.M)
# What a line of the toolchain has that says why a crate is not proved.
FAULT = re.compile(r".*(?:\berror\b|not proved|^rt: ).*", re.M)
LOG = "build.log"
# Where a copy has the name of the crate that is being proved there.
PROVING = "proving"
# What no proof reads of a crate.
UNREAD = shutil.ignore_patterns("out", "must-fail", "*.md")
PRCTL, DIES_WITH_PARENT = ctypes.CDLL(None).prctl, 1


def link(one, other):
    """Gives a file that nothing changes a second name, or copies it where that cannot be."""
    try:
        os.link(one, other)
    except OSError:
        shutil.copy2(one, other)


def link_tree(one, other, *without):
    ignored = shutil.ignore_patterns(*without)
    shutil.copytree(one, other, copy_function=link, ignore=ignored)


def remove(folder):
    """Removes a folder, also where a process that was just killed writes a last file."""
    for _ in range(50):
        shutil.rmtree(folder, ignore_errors=True)
        if not folder.exists():
            return
        time.sleep(0.1)


def end_with_parent():
    """Has a process end when the build does, even where it is killed."""
    PRCTL(DIES_WITH_PARENT, signal.SIGTERM)


class Copies:
    """The copies of a repository, by numbers. `below` has the crates on which each crate rests."""

    def __init__(self, top, below):
        self.top, self.below, self.room = top, below, top / "out/build"
        self.base, self.numbers = self.room / "base/crates", {}

    def begin(self):
        """Copies all sources as they are now, with the libraries that were proved, and returns the
        time of that."""
        self.end()
        self.base.mkdir(parents=True)
        began = (self.room / "began")
        began.touch()
        for crate in self.below:
            shutil.copytree(self.top / "crates" / crate, self.base / crate, ignore=UNREAD)
            self.share(crate)
        rows = (self.top / "crates.txt").read_text().split("\n")
        self.rows = {row.partition(":")[0]: row for row in rows}
        return began.stat().st_mtime

    def out(self, crate):
        return self.top / "crates" / crate / "out"

    def log(self, crate):
        return self.out(crate) / LOG

    def share(self, crate):
        """Lets the crates above find the library of a crate, if there is one."""
        library = self.out(crate) / LIBRARY
        if library.is_dir():
            remove(self.base / crate / "out" / LIBRARY)
            link_tree(library, self.base / crate / "out" / LIBRARY)

    def is_new(self, crate):
        """Whether nothing is kept of an earlier proof of the crate."""
        out = self.out(crate)
        return not out.is_dir() or not any(it.is_dir() for it in out.iterdir())

    def take(self, crate):
        """Has a copy ready for a crate, and returns it."""
        number = next(it for it in itertools.count(1) if it not in self.numbers.values())
        self.numbers[crate] = number
        copy = self.room / str(number)
        for name in (crate, *self.below[crate]):
            if not (copy / "crates" / name).exists():
                link_tree(self.base / name, copy / "crates" / name, "out")
        rows = [self.rows[name] for name in (crate, *self.below[crate])]
        (copy / "crates.txt").write_text("\n".join(rows) + "\n")
        if (self.top / "HANDLES").exists():
            shutil.copy(self.top / "HANDLES", copy)
        for used in self.below[crate]:
            library = pathlib.Path("crates", used, "out", LIBRARY)
            if not (copy / library).exists():
                link_tree(self.room / "base" / library, copy / library)
        self.take_kept(crate, copy / "crates" / crate / "out")
        # from now on what the copy has is put back
        (copy / PROVING).write_text(crate)
        return copy

    def take_kept(self, crate, to):
        """Puts into a copy what earlier proofs of a crate kept."""
        self.out(crate).mkdir(exist_ok=True)
        to.mkdir(exist_ok=True)
        for kept in self.out(crate).iterdir():
            if kept.is_dir():
                link_tree(kept, to / kept.name)
            elif kept.name != LOG:
                shutil.copy2(kept, to)

    def start(self, crate, jobs):
        """Starts the proof of a crate, or of a program its proof and its compilation."""
        folder = self.take(crate) / "crates" / crate
        verb = "run" if (folder / "src/main.rt").exists() else "lib"
        with open(self.log(crate), "wb") as log:
            return subprocess.Popen(
                ["rt", verb, "--jobs", str(jobs)], cwd=folder, stdin=subprocess.DEVNULL,
                stdout=log, stderr=log, preexec_fn=end_with_parent,
            )  # fmt: skip

    def said(self, crate):
        return self.log(crate).read_text(errors="replace")

    def so_far(self, crate):
        """How many functions of a crate are proved, as the toolchain says it, or nothing."""
        found = SO_FAR.findall(self.said(crate))
        return found[-1] if found else ""

    def is_proved_anew(self, crate):
        return bool(PROVED.search(self.said(crate)))

    def fault(self, crate):
        """Why a crate is not proved, in the first words of the toolchain that say it."""
        found = FAULT.search(self.said(crate))
        return found[0].strip()[:100] if found else "the toolchain does not say why"

    def put_back(self, crate):
        """Puts what a proof made, whether or not it came to its end, where the crate has it."""
        copy = self.room / str(self.numbers[crate])
        made = copy / "crates" / crate / "out"
        self.out(crate).mkdir(exist_ok=True)
        for kept in made.iterdir():
            to = self.out(crate) / kept.name
            if to.is_dir():
                remove(to)
            os.replace(kept, to)
        (copy / PROVING).unlink()
        del self.numbers[crate]

    def end(self):
        """Removes all copies. What a build that was ended has proved is put back first."""
        for file in self.room.glob(f"*/{PROVING}"):
            crate = file.read_text()
            if crate in self.below:
                self.numbers[crate] = file.parent.name
                self.put_back(crate)
        remove(self.room)
