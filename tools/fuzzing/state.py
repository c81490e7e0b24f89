"""Stops following random logs, goes on from the saved states, and compares.

    tools/fuzz state                 2,000 streams, 200 refused savings, and 100 kills
    tools/fuzz state --cases 200 --kills 10 --seed 3

A stream is cut between batches, and each part is followed from the state that the part before
saved: the batches and what comes at the end must be those of the model, as if it had not been cut.
A state that is read and saved again must be the same bytes. From the report of a run over the
beginning, and the lines of what waits in it, the store and the waiting list at the end must be the
same too. Where files may have a few bytes at most, or a folder or a link is at the path, the state
cannot be saved: fault 8, and nothing else is changed. A program that is killed while it saves
leaves the old state or the new one.
"""

import os
import resource
import signal
import subprocess
import time

from fuzzing.cases import Kind
from fuzzing.lines import name_of, text_of
from fuzzing.model import text_of as answer_of
from fuzzing.streams import Report, batches_of, followed, lines_of, some_lost


def random_batches(rng):
    return batches_of(rng, some_lost(rng, 60)) or [[]]


def in_parts(rng, batches):
    """The batches, cut at random places."""
    cuts = sorted(rng.choices(range(len(batches) + 1), k=rng.randrange(1, 4)))
    return [batches[start:end] for start, end in zip([0, *cuts], [*cuts, len(batches)])]


def whole_of(batches):
    """What is said of the batches where nothing stops."""
    return Report(answer_of(followed(batches)))


def try_parts(case, batches):
    """Stops the stream, and goes on from its states."""
    whole, said = whole_of(batches), []
    state, again = case.folder / "state", case.folder / "again"
    words = []
    for part in in_parts(case.rng, batches):
        words += ["--workers", case.rng.randrange(1, 8), "--save", state]
        last = Report(case.text("follow", *words, text=lines_of(part)))
        said += last.batches
        words = ["--state", state]
        case.text("follow", *words, "--save", again)
        case.expect("a state that is read and saved", again.read_text(), state.read_text())
    case.expect("the batches", said, whole.batches)
    case.expect("the end", last.end, whole.end)


def try_report(case, batches):
    """Goes on from the report of a beginning."""
    at = case.rng.randrange(len(batches) + 1)
    begun = {name_of(entry): entry for batch in batches[:at] for entry in batch}
    log, report = case.folder / "log", case.folder / "report"
    log.write_text(text_of(begun.values()))
    text = case.text("run", log)
    report.write_text(text)
    waits = [tuple(row[1:3]) for row in Report(text).waiting]
    rest = lines_of([[begun[name] for name in waits], *batches[at:]])
    found = Report(case.text("follow", "--state", report, text=rest))
    again = found.replies.keys() & begun.keys() - {*waits}
    case.expect("what is executed again", sorted(again), [])
    case.expect("the end after a report", found.end, whole_of(batches).end)


def try_stream(case):
    batches = random_batches(case.rng)
    try_parts(case, batches)
    try_report(case, batches)


def no_large_files():
    """No file of this process may have more than a few bytes; to write more is an error."""
    signal.signal(signal.SIGXFSZ, signal.SIG_IGN)
    resource.setrlimit(resource.RLIMIT_FSIZE, (20, 20))


def try_refused(case):
    """Saves where that cannot be done."""
    batches = random_batches(case.rng)
    inside = case.folder / "inside"
    inside.mkdir()
    state, other = inside / "state", inside / "other"
    state.write_text("old")
    other.symlink_to(state)
    choices = [(state, {"preexec_fn": no_large_files}), (other, {}), (inside, {})]
    path, how = case.rng.choice(choices)
    done = case.call("follow", "--save", path, text=lines_of(batches), **how)
    wanted = [4, "epx: fault 8: the answer can not be written\n"]
    case.expect("a state that cannot be saved", [done.returncode, done.stderr], wanted)
    left = [state.read_text(), other.is_symlink(), sorted(os.listdir(inside))]
    case.expect("what is left", left, ["old", True, ["other", "state"]])
    case.expect("what is written", done.stdout, answer_of(followed(batches)))


def try_kill(case):
    """Kills the program around the time at which it saves."""
    batches, state = random_batches(case.rng), case.folder / "state"
    words = ["follow", "--save", state]
    case.text(*words)
    old, text = state.read_bytes(), lines_of(batches)
    began = time.monotonic()
    case.text(*words, text=text)
    took, new = time.monotonic() - began, state.read_bytes()
    state.write_bytes(old)
    call, quiet = [case.program, *words], subprocess.DEVNULL
    with subprocess.Popen(call, stdin=subprocess.PIPE, stdout=quiet, stderr=quiet) as running:
        running.stdin.write(text.encode())
        running.stdin.close()
        time.sleep(case.rng.random() * took)
        running.kill()
    case.expect("the state after a kill", state.read_bytes() in (old, new), True)
    says = Report(case.text("follow", "--state", state, text="\n"))
    wanted = whole_of(batches).end if state.read_bytes() == new else []
    case.expect("the end after a kill", says.end, wanted)
    case.found["new states after a kill"] += state.read_bytes() == new


KINDS = {
    "cases": Kind("streams that stop", 2_000, 500, try_stream),
    "refused": Kind("states that cannot be saved", 200, 100, try_refused),
    "kills": Kind("kills", 100, 100, try_kill),
}
