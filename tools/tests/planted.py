"""Whether each tool that compares finds another answer. A module, and no tool itself: `tools/test
planted` runs it.

Once the program is one whose answers end with another line. Once the program is right, and files of
a copy of the repository have another word. Each tool must say so, and end with status 1."""

import pathlib
import shutil
import subprocess
import tempfile

from command_line import TOP, counted

# Answers as the program does, but for the last line.
ODD = """#!/bin/sh
"{program}" "$@" | sed '$s/.*/["odd"]/'
"""
SMALL = "--rounds 1 --instances 100"
BANK = " ".join(f"examples/bank/{number}.jsonl" for number in range(3))
# Words of tools, of which ODD is such a program, and what they must say.
OF_PROGRAM = (
    (f"bench against ODD {SMALL} --shapes chain --workers 1", "DIFFERENT answers"),
    (f"bench resume --program ODD --rounds 1 {BANK}", "do not end with the store of the whole"),
    (f"bench audit --program ODD {SMALL} --shapes cold-keys", "1 of them wrong"),
    ("stress hostile --program ODD --only files", "WRONG"),
    ("test bank --program ODD", "FAILED: bank"),
    ("test epx --program ODD", "Error"),
    ("test texts --program ODD", "no line of a base"),
)
# A file of the repository, what is in it and what is in its place; a tool that must see it, what it
# must say, and a command of the system that it needs.
OF_TREE = (
    ("share/epx.bash", "blockers", "blackers", "docs completions --only bash", "WRONG", "bash"),
    ("docs/INPUT.md", '9,"seq":8', '9,"seq":7', "docs fragments", "WRONG", "rustc"),
    ("docs/EMBEDDING.md", "print(report.store)", "print(1)", "docs embedding", "WRONG", "python3"),
    ("tools/documents/manual.py", '"executed",1,', '"executed",7,', "docs manual --test", "WRONG",
     "bash"),
)  # fmt: skip


def is_found(top, words, wanted):
    """Whether a tool ends with status 1 and says so."""
    tool, *words = words.split()
    ended = subprocess.run([top / "tools" / tool, *words], cwd=top, capture_output=True, text=True,
                           stdin=subprocess.DEVNULL, check=False)  # fmt: skip
    is_right = ended.returncode == 1 and wanted in ended.stdout + ended.stderr
    if not is_right:
        end = (ended.stdout + ended.stderr)[-400:]
        print(f"WRONG: tools/{tool} {' '.join(words)} ended with {ended.returncode}: {end}")
    return is_right


def is_found_in_copy(program, room, case):
    """Whether it is so in a copy of the repository with another word in a file."""
    name, old, new, words, wanted, _ = case
    copy = room / "copy"
    shutil.rmtree(copy, ignore_errors=True)
    shutil.copytree(TOP, copy, ignore=shutil.ignore_patterns("out", ".git", "__pycache__"))
    text = (copy / name).read_text()
    assert old in text, f"{name} has no {old}"
    (copy / name).write_text(text.replace(old, new))
    # newer than all sources, so that ./epx does not build it
    put_program(program, copy / "crates/epx/out/epx")
    return is_found(copy, words, wanted)


def put_program(program, path):
    path.parent.mkdir(parents=True)
    shutil.copyfile(program, path)
    path.chmod(0o755)


def is_found_on_page(program, room, answer, is_wrong):
    """Whether the commands of a page are wrong exactly where it shows another answer."""
    folder = room / f"page {is_wrong}"
    put_program(program, folder / "epx")
    (folder / "share").mkdir()
    (folder / "share/epx.help").touch()
    (folder / "PROVED.md").touch()
    shutil.copyfile(TOP / "examples/one.jsonl", folder / "one.jsonl")
    shown = "".join(f"    {line}\n" for line in answer.splitlines())
    (folder / "README.md").write_text(f"    ./epx run one.jsonl\n\n{shown}")
    words = [TOP / "tools/docs", "commands", "--at", folder]
    status = subprocess.run(words, capture_output=True, check=False).returncode
    return status == is_wrong


def test(program, _seed):
    """Runs each tool over another answer or another file."""
    with tempfile.TemporaryDirectory(prefix="epx-planted-") as name:
        room = pathlib.Path(name)
        odd = room / "odd"
        odd.write_text(ODD.format(program=program))
        odd.chmod(0o755)
        there = [case for case in OF_TREE if shutil.which(case[-1])]
        trials = [(is_found, TOP, words.replace("ODD", str(odd)), wanted)
                  for words, wanted in OF_PROGRAM]  # fmt: skip
        report = (TOP / "examples/one.report").read_text()
        trials += [(is_found_on_page, program, room, report, 0),
                   (is_found_on_page, program, room, report.replace("5", "6"), 1)]  # fmt: skip
        trials += [(is_found_in_copy, program, room, case) for case in there]
        missed = sum(not try_one(*given) for try_one, *given in counted("planted answers", trials))
    print(f"tests/planted: {len(trials)} other answers and files, {missed} of them not found")
    return 1 if missed else 0
