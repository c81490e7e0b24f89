"""Runs the commands of the pages as a reader would, and compares what they print with the pages.

    tools/docs commands              all pages; the exit status is 1 where something is wrong
    tools/docs commands --list       prints the commands and runs none
    tools/docs commands --at FOLDER  runs those of the pages of an unpacked archive, in its folder

A command is an indented line that begins with `./epx`, `epx`, `tools/`, `contrib/`, or a command
that makes files in /tmp. It names no placeholder in capital letters, and builds or proves nothing.
Commands of one block print what the next indented lines show, if those are an answer. Each runs at
the top of the repository, and must end with status 0, or 5 with `--exit-code`, or 1 where it is a
`diff`, whose answer is shown. Commands with `dot`, of Graphviz, or with `jq` are not run where
these are not there, and the last line says how many.

The program is built first where it is not, which shows how far it is. It is also asked for its help
and its version, which `./epx` says without it. Tools that take more than a minute are not run.
"""

import argparse
import json
import pathlib
import re
import shutil
import subprocess

from command_line import PROGRAM, TOP, Words, stop

PAGES = [
    "README.md",
    "docs/CLI.md",
    "docs/COMPARING.md",
    "docs/FORMAT.md",
    "docs/INPUT.md",
    "docs/PERFORMANCE.md",
    "docs/RECIPES.md",
    "examples/README.md",
]
BEGINS = ("./epx ", "epx ", "tools/", "contrib/", "mkdir ", "cp ", "sed ", "echo ", "diff ")
BEGINS += ("jq ", "grep ", "sha256sum ", "gzip ")
# Commands that need not be there.
OPTIONAL = ("dot", "jq")
# How an answer begins: that of epx, a fault that is explained, what `jq` makes of an answer, and
# what COMPARING.md shows of lines of logs.
ANSWERS = ('["', "epx: fault", '{"', "[{", "[[", *"123456789", '"ops"')
# Tools that prove, or that take more than a minute; docs/TESTING.md and docs/PERFORMANCE.md have
# their results.
LONG = ("try", "draft", "bench", "stress", "fuzz", "batches", "progress", "build", "test")


def blocks(path):
    """The indented blocks of a page, each with the number of its first line. A line that ends with
    a backslash is one with the line after it."""
    block = []
    for number, line in enumerate([*path.read_text().split("\n"), ""], 1):
        if line.startswith("    ") and line.strip():
            block.append(line[4:])
        elif block:
            yield number - len(block), re.sub(r"\\\n *", "", "\n".join(block)).split("\n")
            block = []


def command_in(line):
    """The command of a line, if it is one that can be run as it is."""
    command = re.split(r"\s{2,}(?=[#a-z])", line)[0].split("    #")[0].strip()
    has_place = re.search(r"\b[A-Z]{2,}\b|\[|\.\.(?!/)", re.sub("'[^']*'", "", command))
    if not command.startswith(BEGINS) or has_place:
        return None
    if command.startswith(tuple(f"tools/{name}" for name in LONG)) or command == "epx":
        return None
    return re.sub(r"^epx ", "./epx ", command)


def runs(path):
    """Commands that stand together, and the answer that the page shows of them, or None."""
    found = list(blocks(path))
    for place, (number, block) in enumerate(found):
        commands = [command for command in map(command_in, block) if command]
        if commands:
            after = found[place + 1][1] if place + 1 < len(found) else [""]
            is_answer = after[0].startswith(ANSWERS) or commands[-1].startswith("diff ")
            wanted = "\n".join(after) + "\n" if is_answer else None
            yield number, commands, wanted


def is_right_status(command, status):
    """Whether a command may end so: `diff` ends with 1 where two texts differ."""
    found = status == 5 and "--exit-code" in command
    return status == 0 or found or status == 1 and command.startswith("diff ")


def output(top, command):
    """What a command prints, and its status. A fault that is explained is what it prints."""
    ended = subprocess.run(
        ["bash", "-c", command], cwd=top, capture_output=True, text=True, check=False
    )
    if "--explain" in command and ended.returncode in (1, 4):
        return ended.stderr, 0
    return ended.stdout, ended.returncode


def lacked_by(command):
    """What a command calls and is not there, or None."""
    called = [name for name in OPTIONAL if re.search(rf"(^|\| ){name} ", command)]
    return next((name for name in called if not shutil.which(name)), None)


def is_wrong(top, place, commands, wanted):
    """Runs commands that stand together, and returns whether one of them is wrong."""
    texts, wrong = [], False
    for command in commands:
        print(f"{place}: {command}", flush=True)
        if lacked_by(command):
            print(f"not run: there is no {lacked_by(command)}")
            wanted = None
            continue
        text, status = output(top, command)
        texts.append(text)
        if not is_right_status(command, status):
            print(f"WRONG: ended with status {status}")
            wrong = True
    if wanted and "".join(texts) != wanted:
        print("WRONG: printed\n" + "".join(texts))
        wrong = True
    return wrong


def other_help(text, program):
    """How many of the words that ask for help or the version have another answer than a text has
    for them."""
    wrong = 0
    form = r'^== (\["epx".*\])\n((?:(?!== ).*\n)*)'
    for words, wanted in re.findall(form, text, re.M):
        words = json.loads(words)[1:]
        if words and words[-1] in ("-h", "--help", "help", "-V", "--version"):
            found = subprocess.run([program, *words], capture_output=True, text=True, check=False)
            if (found.stdout, found.returncode) != (wanted, 0):
                print(f"WRONG: epx {' '.join(words)} has another text")
                wrong += 1
    return wrong


def try_help(at):
    """As `other_help`, of the program of a folder, or of the built one, which `./epx` answers for
    where it is not built."""
    if at:
        return other_help((at / "share/epx.help").read_text(), at / "epx")
    return other_help((TOP / "crates/epx_cases/stdout").read_text(), PROGRAM)


def build():
    """Builds the program where it is not, and says how far it is."""
    none = subprocess.DEVNULL
    if subprocess.run([TOP / "epx", "run", "-"], stdin=none, stdout=none).returncode:
        stop("the program could not be built", 70)


def folder(word):
    """The folder of an unpacked archive."""
    path = pathlib.Path(word).absolute()
    if not (path / "PROVED.md").is_file():
        raise argparse.ArgumentTypeError(f"{word!r} is no folder of an unpacked archive")
    return path


def main():
    words = Words(__doc__)
    words.add_argument("--list", action="store_true")
    words.add_argument("--at", type=folder, metavar="FOLDER")
    given = words.parse_args()
    top = given.at or TOP
    pages = [page for page in PAGES if not given.at or (top / page).is_file()]
    found = [(page, *run) for page in pages for run in runs(top / page)]
    if given.list:
        for page, number, commands, _ in found:
            print("\n".join(f"{page}:{number}: {command}" for command in commands))
        return 0
    if not given.at:
        build()
    wrong = sum(is_wrong(top, f"{page}:{number}", *run) for page, number, *run in found)
    wrong += try_help(given.at)
    commands = [command for _, _, commands, _ in found for command in commands]
    left = len([command for command in commands if lacked_by(command)])
    end = f"have {wrong} WRONG answers" if wrong else "print what the pages say"
    end += f", {left} not run" if left else ""
    count = f"{len(commands) - left} commands of {len({it[0] for it in found})} pages"
    print(f"tools/docs commands: {count} {end}")
    return 1 if wrong else 0

