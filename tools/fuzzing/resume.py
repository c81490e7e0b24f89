"""Runs random logs whole and in two parts, of which the second goes on from the report of the
first.

    tools/fuzz resume                       40 splits of logs of 2,000 instances, and 300 small maps
    tools/fuzz resume --cases 6 --instances 20000 --seed 3
    tools/fuzz resume --maps 5000

The logs are those of five replicas whose commands touch few keys, with all that they depend on, so
they are covered. A split gives the first part the instances whose commands were proposed before a
random time, but for some at random that it does not know yet, so that others wait for them. The
second part has those that are left. Each instance must have the reply that it has where the whole
is executed, what was executed first must be listed as done, and the final store and the instances
that wait must be those of the whole. Where there are at most 500 instances the reports must be
those of the model.

Small maps need not be covered. Any of their instances are in the first part, and the second has
what is left, or all. Both reports must be those of the model.
"""

from command_line import count
from fuzzing.cases import Kind
from fuzzing.lines import committed, name_of, text_of
from fuzzing.maps import SMALL, Map
from fuzzing.model import report, resumed_report
from fuzzing.model import text_of as answer_of
from fuzzing.streams import Report, covered_instances

# The instances of a split in the gate.
OF_DAY = {"instances": 60}
# The most instances of a report that the model makes: it takes quadratic time.
MOST = 500


def add_options(words):
    words.add_argument("--instances", type=count, default=2_000, help="of a split")


def parts_of(rng, known):
    """The entries that the first part has."""
    cut = rng.randrange(len(known) + 1)
    late = set(rng.sample(range(cut), min(cut, rng.randrange(6))))
    return [entry for at, entry in enumerate(known[:cut]) if at not in late]


def run(case, name, entries):
    """The path of a log, and its report."""
    log = case.folder / name
    log.write_text(text_of(entries))
    text = case.text("run", *case.plan(), log)
    if len(entries) <= MOST:
        case.expect(f"the {name} report", text, answer_of(report(committed(entries))))
    return log, text


def resume(case, name, base, entries, begun):
    """The report that goes on from a base, the report of what was begun."""
    log = case.folder / name
    log.write_text(text_of(entries))
    text = case.text("resume", *case.plan(), base, log)
    if len(entries) <= MOST:
        store = {key: value for _, key, value in begun.store}
        wanted = resumed_report(committed(entries), begun.replies.keys(), store)
        case.expect(f"the {name} report", text, answer_of(wanted))
    return Report(text)


def expect_whole(case, whole, first, later):
    """The first report and the later one must say together what the whole says."""
    case.expect("what is listed as done", later.done, sorted(first.replies))
    both = first.replies.keys() & later.replies.keys()
    case.expect("what is executed twice", sorted(both), [])
    case.expect("the replies", first.replies | later.replies, whole.replies)
    case.expect("the final store", later.store, whole.store)
    case.expect("the instances that wait", later.waiting, whole.waiting)


def try_split(case):
    rng = case.rng
    entries = covered_instances(rng, case.given.instances)
    lost = {name_of(entry) for entry in rng.sample(entries, min(len(entries), rng.randrange(4)))}
    known = [entry for entry in entries if name_of(entry) not in lost]
    _, text = run(case, "first", parts_of(rng, known))
    base, first = case.folder / "base", Report(text)
    base.write_text(text)
    left = [entry for entry in known if name_of(entry) not in first.replies]
    whole = Report(run(case, "whole", known)[1])
    for name, entries in (("second", left), ("repeated", known)):
        expect_whole(case, whole, first, resume(case, name, base, entries, first))
    case.found["executed first"] += len(first.replies)
    case.found["waited then"] += len(first.waiting)


def try_map(case):
    entries = list(Map(case.rng, SMALL).entries.values())
    early = [entry for entry in entries if case.rng.random() < 0.6]
    _, text = run(case, "first", early)
    base, first = case.folder / "base", Report(text)
    base.write_text(text)
    left = [entry for entry in entries if name_of(entry) not in first.replies]
    resume(case, "second", base, left, first)
    resume(case, "repeated", base, entries, first)


KINDS = {
    "cases": Kind("splits", 40, 400, try_split),
    "maps": Kind("small maps", 300, 300, try_map),
}
