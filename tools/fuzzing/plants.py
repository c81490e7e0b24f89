"""Programs that lie, each of which a question must find. A module, and no tool itself."""

import contextlib
import io
import pathlib
import shlex
import tempfile
from unittest import mock

from command_line import say

# Calls the program, and changes an answer to words that begin so, or the status of it.
LIAR = """#!/bin/sh
case "$* " in
{words}*) ;;
*) exec {program} "$@" ;;
esac
answer=$({program} "$@")
status=$?
[ -z "$answer" ] || printf '%s\\n' "$answer" | sed '{change}'
exit {status}
"""
# Changes a line: all its digits, or what it says where there is none.
OTHER = "y/0123456789/1234567890/;s/covered/cover/;s/lawful/law/;s/linear/line/;s/[{}]$/&;/"
# How a program may lie: what sed does to the answer, and the status.
LIES = {
    "the first line": (f"1{{{OTHER}}}", "$status"),
    "the last line": (f"${{{OTHER}}}", "$status"),
    "a line too few": ("$d", "$status"),
    "the status": ("", "$((status == 0))"),
}
# The words of epx that each question must compare.
WORDS = {
    "run": ("run", "order", "levels", "trace", "replay"),
    "audit": ("audit --workers", "audit --all", "check --workers", "check --prefix"),
    "blockers": ("blockers", "run"),
    "compare": ("compare --workers", "compare --exit-code"),
    "graph": ("graph --workers", "graph --around"),
    "resume": ("run", "resume"),
    "follow": ("follow", "run", "resume"),
    "state": ("follow --workers", "follow --save", "follow --state"),
    "verify": ("replay", "verify"),
    "linear": ("linear",),
    "expand": ("run", "check", "audit", "resume"),
}
# What is compared without the program, with a wrong one in its place.
SEARCHES = {
    "compare": ("fuzzing.compare.instance_of", lambda line: None),
    "expand": ("pairs.All.pairs", lambda rule, line: []),
    "linear": ("fuzzing.histories.Executed.serial_order", lambda *words: None),
}


def is_found(question, given):
    """Whether a case differs. The cases of all kinds are tried alternately."""
    most = max(map(len, given.numbers.values()))
    cases = [(kind, at) for at in range(most) for kind, it in given.numbers.items() if at in it]
    with contextlib.redirect_stdout(io.StringIO()):
        return any(not question.attempt(given, *case)[1] for case in cases)


def try_plants(question, given, program, most):
    """Plants each lie. Returns how many there are, and how many are not found."""
    given.numbers = {kind: range(min(most, len(it))) for kind, it in given.numbers.items()}
    tried = missed = 0
    with tempfile.TemporaryDirectory() as name:
        folder = pathlib.Path(name)
        given.keep, given.program = folder / "kept", str(folder / "liar")
        for words in WORDS[question.name]:
            for what, (change, status) in LIES.items():
                text = LIAR.format(words=shlex.quote(words + " "), program=shlex.quote(program),
                                   change=change, status=status)  # fmt: skip
                (folder / "liar").write_text(text)
                (folder / "liar").chmod(0o755)
                tried, missed = tried + 1, missed + note(question, given, f"{what} of {words}")
        if question.name in SEARCHES:
            given.program = program
            with mock.patch(*SEARCHES[question.name]):
                what = f"another {SEARCHES[question.name][0]}"
                tried, missed = tried + 1, missed + note(question, given, what)
    return tried, missed


def note(question, given, what):
    """Tries a lie. Returns whether it is not found."""
    say(f"{question.name}: {what}")
    if is_found(question, given):
        return False
    print(f"WRONG {question.name}: {what} may differ")
    return True
