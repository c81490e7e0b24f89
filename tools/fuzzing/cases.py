"""How random cases are made, tried, counted and kept. A module, and no tool itself.

Each case has random numbers of its own, which follow from the question, the kind of case, its
number and the seed. So one case can be tried again without the others.
"""

import collections
import dataclasses
import json
import pathlib
import random
import shlex
import shutil
import subprocess
import tempfile
import traceback

from command_line import PROGRAM, counted
from fuzzing.model import text_of

# The status of an answer that finds something, with `--exit-code`.
FOUND = 5
# The answers that find nothing.
NOTHING = [["covered"]], [["lawful"]], [["linear"]], [["several", 0]]
# What a wrong answer makes of the code that compares it.
MISREAD = (ValueError, LookupError, TypeError, AttributeError, subprocess.TimeoutExpired)
# The seconds after which a call is taken to hang.
HANGS = 600


@dataclasses.dataclass
class Kind:
    """A kind of case: what its cases are, how many there are, and how many in the gate, and what
    tries one."""

    what: str
    count: int
    of_day: int
    attempt: collections.abc.Callable


class Differs(Exception):
    """An answer that is not the wanted one."""

    def __init__(self, what, told, wanted):
        super().__init__(what)
        self.what, self.told, self.wanted = what, told, wanted


class Tally:
    """How many answers were compared, by what they are about, and how many of them were wrong."""

    def __init__(self):
        self.wrong, self.asked = 0, collections.Counter()

    def expect(self, what, told, wanted):
        self.asked[what] += 1
        if told != wanted:
            self.wrong += 1
            print(f"WRONG {what} {self.asked[what]}: {told} and not {wanted}")

    def text(self):
        tried = ", ".join(f"{number} {what}" for what, number in sorted(self.asked.items()))
        return f"{tried}; {self.wrong} wrong"


class Case:
    """One random case, with its random numbers and its folder, and what it asks the program."""

    def __init__(self, given, name, folder):
        self.given, self.program, self.folder = given, given.program, folder
        self.rng = random.Random(f"{name} of seed {given.seed}")
        self.calls, self.compared, self.found = [], 0, collections.Counter()

    def write(self, texts):
        """Writes logs, and returns their paths."""
        paths = [self.folder / f"{number}.jsonl" for number in range(len(texts))]
        for path, text in zip(paths, texts):
            path.write_bytes(text if isinstance(text, bytes) else text.encode())
        return paths

    def plan(self):
        """Words for a number of workers and a size of pieces of work."""
        cut = self.rng.choice(["1", "3", "256"])
        return ["--workers", self.rng.choice(["1", "2", "4", "7"]), "--cut", cut]

    def note(self, words, text=""):
        """Notes a call, for who repeats the case."""
        self.calls.append((list(map(str, words)), text))

    def call(self, *words, text="", **how):
        """Calls the program, with a text as its standard input."""
        words = list(map(str, words))
        self.note(["epx", *words], text)
        done = subprocess.run([self.program, *words], input=text.encode(), capture_output=True,
                              check=False, timeout=HANGS, **how)  # fmt: skip
        done.stdout = done.stdout.decode(errors="replace")
        done.stderr = done.stderr.decode(errors="replace")
        return done

    def text(self, *words, text=""):
        """What the program prints, which must end well."""
        done = self.call(*words, text=text)
        if done.returncode != 0:
            raise Differs(f"the status of {words[0]}", f"{done.returncode}: {done.stderr}", "0")
        return done.stdout

    def answer(self, *words):
        """The rows of an answer, which ends with the status of what it finds."""
        done = self.call(*words)
        rows = [json.loads(line) for line in done.stdout.splitlines()]
        status = FOUND if "--exit-code" in words and rows not in NOTHING else 0
        if done.returncode != status:
            raise Differs(f"the status of {words[0]}", f"{done.returncode}: {done.stderr}", status)
        return rows

    def expect(self, what, told, wanted):
        self.compared += 1
        if told != wanted:
            raise Differs(what, told, wanted)


def shown(value):
    """What was said, or wanted, as the text of a file."""
    if isinstance(value, str):
        return value
    if isinstance(value, list) and all(isinstance(row, list) for row in value):
        return text_of(value)
    return f"{value!r}\n"


def keep(case, name, difference, again):
    """Keeps a case that differs: its files, what was asked, and both answers. Returns where."""
    folder = case.given.keep
    if folder is None:
        folder = case.given.keep = pathlib.Path(tempfile.mkdtemp(prefix="epx-fuzz-"))
    place = folder / name.replace(" ", "-")
    shutil.rmtree(place, ignore_errors=True)
    shutil.copytree(case.folder, place, symlinks=True)
    (place / "told").write_text(shown(difference.told))
    (place / "wanted").write_text(shown(difference.wanted))
    lines = [f"{name}: {difference.what} differs\n", f"again:  {again}\n", "\n"]
    for number, (words, text) in enumerate(case.calls):
        words = shlex.join(words).replace(f"{case.folder}/", "")
        if text:
            (place / f"input-{number}").write_text(text)
            words += f" < input-{number}"
        lines.append(words + "\n")
    (place / "asked").write_text("".join(lines))
    return place


class Question:
    """A module of this folder, whose random cases ask the program one thing."""

    def __init__(self, name, module):
        self.name, self.text = name, module.__doc__
        # by the option that says how many; the first kind has the option --cases
        self.kinds = module.KINDS
        # the sizes of the gate, by option
        self.of_day = getattr(module, "OF_DAY", {})
        self.add_options = getattr(module, "add_options", lambda words: None)
        self.answer_alone = getattr(module, "answer_alone", None)
        self.is_without_program = getattr(module, "is_without_program", lambda given: False)

    def again(self, given, kind, number):
        """The command that tries one case again."""
        words = ["tools/fuzz", self.name, "--seed", given.seed, "--case"]
        words.append(number if kind == "cases" else f"{kind}:{number}")
        for option, default in given.options.items():
            value = getattr(given, option)
            if value != default:
                words += [f"--{option}"] if value is True else [f"--{option}", value]
        if given.program not in (None, str(PROGRAM)):
            words += ["--program", given.program]
        return shlex.join(map(str, words))

    def attempt(self, given, kind, number):
        """Tries one case. Returns the case, and whether nothing differs."""
        name = f"{self.name} {kind} {number}"
        with tempfile.TemporaryDirectory(prefix="epx-case-") as folder:
            case = Case(given, name, pathlib.Path(folder))
            try:
                self.kinds[kind].attempt(case)
                return case, True
            except Differs as found:
                difference = found
            except MISREAD:
                difference = Differs("an answer that cannot be read", traceback.format_exc(), "")
            again = self.again(given, kind, number)
            place = keep(case, name, difference, again)
            print(f"WRONG {name}: {difference.what} differs; it is in {place}\n  {again}")
            return case, False

    def run(self, given):
        """Tries all cases. Returns how many, and how many differ, and prints what was found."""
        wrong, compared, tried, found = 0, 0, [], collections.Counter()
        for kind, numbers in given.numbers.items():
            if not numbers:
                continue
            for number in counted(f"{self.name}: {self.kinds[kind].what}", numbers):
                case, is_right = self.attempt(given, kind, number)
                wrong += not is_right
                compared += case.compared
                found.update(case.found)
            tried.append(f"{len(numbers):,} {self.kinds[kind].what}")
        more = "".join(f", {number:,} {what}" for what, number in sorted(found.items()))
        print(f"tools/fuzz {self.name}: seed {given.seed}: {', '.join(tried)}, "
              f"{compared:,} answers{more}; {wrong} wrong", flush=True)  # fmt: skip
        return sum(map(len, given.numbers.values())), wrong
