"""What several tests of contrib/ do. A module, and no tool itself."""

import subprocess

from command_line import TOP
from logs import write_texts

# Words that expand and texts both refuse, each with the status and what is said.
WORDS_OF_BOTH = (
    ("a/0.jsonl", 2, "--out FOLDER is missing"),
    ("--out", "out", 2, "no LOG is named"),
    ("a/0.jsonl", "b/0.jsonl", "--out", "out", 2, "a/0.jsonl and b/0.jsonl have one name"),
    ("a/0.jsonl", "--out", "a", 2, "a is the folder of a/0.jsonl"),
)


def raised(kind, call):
    """The exception of this kind that a call raises."""
    try:
        call()
    except kind as found:
        return found
    raise AssertionError(f"no {kind.__name__} was raised")


def write_logs(folder, logs):
    """Writes logs of these lines, and returns their paths."""
    return write_texts(folder, ("".join(line + "\n" for line in lines) for lines in logs))


def is_refused(tool, words, status, why, folder, text=b"", lines=1):
    """Whether words are refused with so many lines, of which the first says why, and nothing is
    written."""
    before = {path: path.stat().st_mtime_ns for path in folder.rglob("*")}
    ended = subprocess.run([TOP / "contrib" / tool, *words], cwd=folder, input=text,
                           capture_output=True, check=False)  # fmt: skip
    said = ended.stderr.decode()
    is_right = ended.returncode == status and said.startswith(f"contrib/{tool}: {why}")
    is_right = is_right and said.count("\n") == lines and not ended.stdout
    is_right = is_right and before == {it: it.stat().st_mtime_ns for it in folder.rglob("*")}
    if not is_right:
        print(f"WRONG: {words} ended with {ended.returncode} and not with {status}: {why}\n{said}")
    return is_right
