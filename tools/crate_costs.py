"""What it costs to prove each crate, as far as it is known. A module, and no tool.

Each build notes processor seconds in out/costs.json, which git does not track. In a fresh clone
those of tools/first_costs.json count, which is a copy of such a file. A crate that neither has is
weighed by its lines.
"""

import json
import os

# What is guessed of a crate that has no cost yet, for each line of its sources and proofs; of a
# program for each line of the crates that it rests on, since all of them are compiled at last.
PER_LINE = 0.05
PER_LINE_BELOW = 0.003
# What a crate costs that is proved already.
PROVED = 1
PARTS = ("src", "specs", "proofs")


def files_of(folder):
    return [it for part in PARTS for it in folder.glob(f"{part}/**/*") if it.is_file()]


def read(file):
    """What a file of costs has, or nothing where it cannot be read."""
    try:
        found = json.loads(file.read_text())
        seconds = {it: float(cost) for it, cost in found.get("seconds", {}).items()}
        return seconds, {it: float(when) for it, when in found.get("proved", {}).items()}
    except (OSError, ValueError, AttributeError, TypeError):
        return {}, {}


class Costs:
    """The costs of the crates that a program rests on, with those that each of them uses."""

    def __init__(self, top, below):
        self.top, self.below, self.file = top, below, top / "out/costs.json"
        self.seconds, self.proved = read(self.file)
        self.first = read(top / "tools/first_costs.json")[0]
        files = {crate: files_of(top / "crates" / crate) for crate in below}
        self.lines = {it: sum(map(lines_of, files[it])) for it in below}
        self.changed = {it: max((file.stat().st_mtime for file in files[it]), default=0)
                        for it in below}  # fmt: skip

    def of(self, crate):
        """The seconds that the crate is likely to take now."""
        changed = max(self.changed[it] for it in [crate, *self.below[crate]])
        is_there = (self.top / "crates" / crate / "out").is_dir()
        if is_there and self.proved.get(crate, 0) > changed:
            return PROVED
        known = self.seconds.get(crate) or self.first.get(crate)
        return known or max(PROVED, self.guess(crate))

    def guess(self, crate):
        if (self.top / "crates" / crate / "src/main.rt").exists():
            return PER_LINE_BELOW * sum(self.lines[it] for it in self.below[crate])
        return PER_LINE * self.lines[crate]

    def note(self, crate, began, seconds=None):
        """Notes that the sources of the time at which the build began are proved, and the seconds
        that it took, if all of the crate was proved."""
        self.proved[crate] = began
        if seconds:
            self.seconds[crate] = round(seconds, 1)
        text = json.dumps({"seconds": self.seconds, "proved": self.proved}, indent=1)
        new = self.file.with_suffix(".new")
        new.write_text(text + "\n")
        os.replace(new, self.file)


def lines_of(file):
    return file.read_bytes().count(b"\n")
