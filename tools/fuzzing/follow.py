"""Follows random logs whose instances arrive in random order and batches.

    tools/fuzz follow                         20,000 covered logs, and 300 that may not be
    tools/fuzz follow --cases 2000 --chains 50 --seed 3

Covered logs are those of five replicas whose commands touch few keys; some lack an instance, for
which others wait. With one to seven workers, of standard input or of up to three logs, in batches
or with --each, the answer must be that of the model. Each instance must have the reply that it has
where all is executed in one run, and the store and the waiting lines at the end must be those of
that run. A line that differs from one that waits must be refused with both places, once the batches
before it are written. Of logs whose commands conflict without a dependency each batch is compared
with a resumed run over what has come so far, from the report before: the same replies in the same
order, the same store, and the same instances wait.
"""

from fuzzing.cases import Kind
from fuzzing.lines import committed, name_of, text_of
from fuzzing.model import text_of as answer_of
from fuzzing.streams import Report, batches_of, covered_instances, followed, some_lost


def in_logs(case, text):
    """Cuts a text into logs at some of its lines. Returns their paths, or None where it is to be
    read from standard input."""
    lines, rng = text.splitlines(keepends=True), case.rng
    cuts = sorted(rng.choices(range(len(lines) + 1), k=rng.randrange(3)))
    if not cuts:
        return None
    parts = zip([0, *cuts], [*cuts, len(lines)])
    return case.write(["".join(lines[start:end]) for start, end in parts])


def follow(case, batches):
    """What `follow` says of these batches. Where each batch has one instance, blank lines may be
    left out."""
    words = ["follow", "--workers", case.rng.randrange(1, 8), "--cut", case.rng.choice([1, 3, 256])]
    text = "\n".join(text_of(batch) for batch in batches)
    if all(len(batch) == 1 for batch in batches) and case.rng.randrange(2):
        words.append("--each")
        text = "".join(text_of(batch) for batch in batches)
    paths = in_logs(case, text)
    told = case.text(*words, *paths) if paths else case.text(*words, text=text)
    # the last batch ends with the input, if a line came
    wanted = followed(batches if batches[-1] else batches[:-1])
    case.expect("the answer", told, answer_of(wanted))
    return Report(told)


def expect_refusal(case, batches):
    """Where a line comes that differs from one that waits, in a last batch, it must be refused."""
    lines = "\n".join(text_of(batch) for batch in batches).splitlines()
    known = {name_of(entry): entry for batch in batches for entry in batch}
    waits = [x for x, _ in committed(known.values()).waiting()]
    if not waits:
        return
    name = case.rng.choice(waits)
    other = known[name] | {"seq": known[name]["seq"] + 1}
    done = case.call("follow", text="\n".join([*lines, "", text_of([other])]))
    before = [row for row in followed(batches) if row[0] in ("came", "reply")]
    first = 1 + lines.index(text_of([known[name]])[:-1])
    wanted = (f"epx: fault 6: instance {name[0]}.{name[1]} differs between log 0 line {first} and "
              f"log 0 line {len(lines) + 2}\n")  # fmt: skip
    case.expect("the refusal", [done.returncode, done.stderr], [1, wanted])
    case.expect("what is written before the refusal", done.stdout, answer_of(before))


def try_covered(case):
    """Follows a covered log as it arrives."""
    known, log = some_lost(case.rng, 60), case.folder / "log"
    log.write_text(text_of(known))
    whole = Report(case.text("run", log))
    batches = batches_of(case.rng, known) or [[]]
    found = follow(case, batches)
    case.expect("the replies of one run", found.replies, whole.replies)
    case.expect("the end of one run", found.end, whole.end)
    expect_refusal(case, batches)
    case.found["instances"] += len(known)
    case.found["instances that wait"] += len(whole.waiting)


def try_chain(case):
    """Follows a log that may lack dependencies batch by batch, and resumes as often."""
    rng = case.rng
    entries = covered_instances(rng, rng.randrange(2, 30))
    for entry in entries:
        entry["deps"] = {dep for dep in sorted(entry["deps"]) if rng.randrange(3)}
    batches = batches_of(rng, entries)
    log, base = case.folder / "log", case.folder / "report"
    replies, come = [], []
    for number, batch in enumerate(batches):
        come += batch
        log.write_text(text_of(come))
        text = case.text("resume", base, log) if number else case.text("run", log)
        base.write_text(text)
        resumed = Report(text)
        replies += resumed.of("reply")
        found = follow(case, batches[: number + 1])
        case.expect("the replies of resumed runs", found.of("reply"), replies)
        case.expect("the end of resumed runs", found.end, resumed.end)
    case.found["instances"] += len(entries)


KINDS = {
    "cases": Kind("covered logs", 20_000, 800, try_covered),
    "chains": Kind("chains of resumed runs", 300, 150, try_chain),
}
