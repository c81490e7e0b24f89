"""What `tools/page` must refuse. A module, and no tool itself."""

import os
import subprocess

from command_line import TOP

GOOD = '{"r":0,"i":0,"seq":0,"deps":[],"ops":[]}\n'
OTHER = '{"r":0,"i":0,"seq":1,"deps":[],"ops":[]}\n'
# Words that must be refused, each with the status and the first line of what is said. `log`, `bad`
# and `other` are logs, of which the last two have a fault.
REFUSED = (
    (["log"], 2, "tools/page: --out FILE is missing"),
    (["--out", "made"], 2, "tools/page: no LOG is named"),
    (["log", "--out", "log"], 2, "tools/page: log is log, which would be overwritten"),
    (["log", "--out", "link"], 2, "tools/page: link is log, which would be overwritten"),
    (["log", "--history", "past", "--out", "past"], 2, "tools/page: past is past, which would"),
    (["log", "--skew", "1", "--out", "made"], 2, "tools/page: --skew is for a HISTORY, and none"),
    (["log", "--history", "past", "--skew", "x", "--out", "made"], 2, "error: invalid value 'x'"),
    (["log", "--out", "folder"], 2, "tools/page: folder is no file"),
    (["log", "--out", "/dev/null"], 2, "tools/page: /dev/null is no file"),
    (["log", "--out", "log/made"], 1, "tools/page: "),
    (["log", "--out", "made", "--colour"], 2, "tools/page: unrecognized arguments: --colour"),
    (["log", "bad", "--out", "made"], 1, "epx: fault 4: log 1 line 1: NotJson"),
    (["log", "other", "--out", "made"], 1, "epx: fault 6: instance 0.0 differs between log 0"),
    (["none", "--out", "made"], 4, "epx: fault 7: log 0 can not be read"),
    (["folder", "--out", "made"], 4, "epx: fault 7: log 0 can not be read"),
    (["log"] * 65 + ["--out", "made"], 1, "epx: fault 2: more than 64 logs"),
    (["log", "--history", "none", "--out", "made"], 4, "epx: fault 7: log 1 can not be read"),
    (["log", "--history", "bad", "--out", "made"], 1, "epx: fault 9: base line 1 is not as"),
)


def make_files(folder):
    folder.mkdir()
    (folder / "log").write_text(GOOD)
    (folder / "bad").write_text('{"r":\n')
    (folder / "other").write_text(OTHER)
    (folder / "past").write_text('["call",0,0,1,2]\n')
    (folder / "link").symlink_to("log")
    (folder / "folder").mkdir()


def contents(folder):
    return {path: path.read_bytes() for path in folder.rglob("*") if path.is_file()}


def call(program, folder, words, given=b""):
    """How the tool ends, what it says first, and whether it says the path of a log."""
    words = [TOP / "tools/page", *words, "--program", program]
    ended = subprocess.run(words, cwd=folder, input=given, capture_output=True, check=False)
    return ended.returncode, ended.stderr.decode(), ended.stdout


def try_refusals(told, program, folder):
    """Tries words and files that must be refused, with nothing written, and some that must not."""
    make_files(folder)
    before = contents(folder)
    for words, status, said in REFUSED:
        ended, text, out = call(program, folder, words)
        is_known = text.startswith(said) and "/copy-" not in text and "Traceback" not in text
        told.expect("refusals", [ended, is_known or text, out], [status, True, b""])
        told.expect("refusals that write nothing", contents(folder), before)
    _, text, _ = call(program, folder, ["log", "bad", "--out", "made"])
    told.expect("refusals that name the file", "log 1 is bad; " in text, True)
    os.chmod(folder / "log", 0o400)
    ended, text, _ = call(program, folder, ["-", "./log", "--out", "made"], GOOD.encode())
    told.expect("pages of standard input", [ended, text], [0, "tools/page: wrote made\n"])
    made = (folder / "made").read_text()
    told.expect("pages without a network", "https:" in made or " src=" in made, False)
