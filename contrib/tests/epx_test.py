"""The test of `epx.py`: its answers are those of examples/, and followers end as they should. A
module, and no tool itself: `tools/test epx` runs it."""

import dataclasses
import functools
import os
import pathlib
import tempfile

import epx
import follower_test
from epx import Blocker, Blockers, Call, Fault, Finding, Follower, Id, Level, Linear, Reply, Said
from epx import Waiting, audit, audit_all, blockers, check, compare, graph, levels, linear, order
from epx import path, replay, report, resume, trace, verify, why
from trials import raised


def test_answers(examples, logs):
    """Compares answers with the examples."""
    found = report(logs)
    assert found.text == (examples / "replicas/all.report").read_bytes()
    assert found == report([log.read_bytes() for log in logs], workers=1)
    assert found.store == {"alice": 75, "bob": 50, "carol": 7, "dave": 7}
    assert found.replies[4] == Reply(Id(1, 1), (), 0)
    assert found.waiting == [Waiting(Id(2, 1), Id(2, 2))]
    assert [one.id for one in order(logs)] == [one.id for one in found.replies]
    assert [one.id for one in levels(logs)] == [one.id for one in found.replies]
    assert levels(logs)[-1] == Level(Id(2, 3), 3)
    assert blockers(logs) == Blockers([Blocker(Id(2, 2), 1, 1)], 0)
    bank = sorted(examples.glob("bank/*.jsonl"))
    assert blockers(bank).waiting == len(report(bank).waiting)
    assert graph(logs) == (examples / "replicas/all.dot").read_text()
    around = graph(logs, around=Id(0, 1), steps=0)
    assert around.count("label") == 1 and graph(logs, around=Id(2, 1)).count("->") == 1
    assert graph(logs, around=Id(0, 1), steps=99).count("->") == graph(logs).count("->") - 1
    assert audit_all(logs) == []
    assert audit(logs) is None and check([one.id for one in order(logs)], logs) is None
    assert check([], logs)[0] == "missing" and check([], logs, prefix=True) is None
    right = replay([one.id for one in found.replies], logs)
    assert right == Said(found.replies, found.store)
    assert verify(right, logs) == verify(found, logs) == verify(right.text, logs) == []
    right.store["bob"] = 51
    assert verify(right, logs) == [("store", "bob", 51, 50)]
    kinds = [row[0] for row in compare(sorted(examples.glob("corrupted/*.jsonl")))]
    assert kinds == ["log"] * 5 + ["bad", "differs"] + ["lacks"] * 4 + ["missing"]
    assert why(Id(2, 1), logs) == [("waiting", 2, 1, 2, 2), ("needs", 2, 2, 1)]
    assert path(Id(1, 1), Id(0, 0), logs) == [Id(1, 1), Id(0, 0)]
    assert path(Id(2, 0), Id(0, 0), logs) is None
    assert trace("bob", logs) == [("write", 0, 0, None, 20), ("write", 0, 1, 20, 50)]
    assert trace("bob", logs, reads=True)[2] == ("read", 1, 1, 50)
    halves = [examples / "halves/first.jsonl", examples / "halves/second.jsonl"]
    assert resume(report(halves[:1]), halves[1:]).store == found.store


def test_histories(logs):
    """Asks about histories, of which some are linear."""
    replies = report(logs).replies
    calls = [Call(one.id, at, at + 1, one) for at, one in enumerate(replies)]
    assert linear([], logs).is_linear and linear(calls, logs) == Linear([], [], [], [])
    text = b"".join(call.text for call in calls)
    assert linear(text, logs, exit_code=True).is_linear and linear(iter(calls), logs).is_linear
    early = dataclasses.replace(calls[0], invoked=9, returned=None, reply=None)
    wrong = dataclasses.replace(calls[4], reply=Reply(calls[4].id, ()))
    calls = [early, *calls[1:4], wrong, calls[5], Call(Id(2, 1), 0, 1), Call(Id(2, 2), 0)]
    found = linear(calls, logs, workers=1)
    assert not found.is_linear and found.replies == [wrong.id] and found.lost == [Id(2, 1)]
    assert found.late == [(calls[at].id, early.id) for at in (2, 3, 4, 5)]
    assert found.findings[0] == ("late", 0, 1, 0, 0) and found.findings[-1] == ("lost", 2, 1)
    assert linear(calls, logs, skew=5).late == [(calls[2].id, early.id)]
    assert raised(Finding, lambda: linear(calls, logs, exit_code=True)).answer == found
    fault = raised(Fault, lambda: linear([Call(Id(0, 0), 2, 1)], logs))
    assert (fault.number, fault.status) == (9, 1)


def test_findings(examples, logs):
    """Asks for findings where there is one, where there is none, and of no logs."""
    unrelated, one = [examples / "unrelated.jsonl"], [examples / "one.jsonl"]
    for ask_for in (report, order, levels, blockers, functools.partial(resume, report([]))):
        assert raised(Finding, lambda: ask_for(logs, exit_code=True)).answer == ask_for(logs)
        assert ask_for(one, exit_code=True) == ask_for(one)
    assert raised(Finding, lambda: audit(unrelated, exit_code=True)).answer == audit(unrelated)
    assert audit(logs, exit_code=True) is None and audit(unrelated) is not None
    found = raised(Finding, lambda: audit_all(unrelated, exit_code=True)).answer
    assert found == audit_all(unrelated)
    assert {found[0].before, found[0].after} == {*audit(unrelated)}
    assert audit_all(logs, exit_code=True) == []
    assert raised(Finding, lambda: check([], logs, exit_code=True)).answer == check([], logs)
    assert check([], logs, prefix=True, exit_code=True) is None
    wrong = Said([], {"bob": 1})
    found = raised(Finding, lambda: verify(wrong, logs, exit_code=True))
    assert found.answer == verify(wrong, logs) == [("store", "bob", 1, None)]
    assert verify(Said([], {}), logs, exit_code=True) == []
    assert raised(Finding, lambda: compare(logs, exit_code=True)).answer == compare(logs)
    assert compare(one, exit_code=True) == compare(one)
    for ask_for in (report, order, levels, blockers, audit, compare):
        fault = raised(Fault, lambda: ask_for([], exit_code=True))
        assert (fault.number, fault.status) == (None, 2)
    fault = raised(Fault, lambda: report([b"{}"]))
    assert (fault.number, fault.status) == (4, 1)


def test_follower(examples):
    """Follows the batches of an example, at once and from a saved state."""
    first, second = (examples / "arriving.jsonl").read_text().split("\n\n")
    replies = [Reply(Id(1, 0), ()), Reply(Id(0, 1), (7,))]
    with tempfile.TemporaryDirectory() as folder:
        state = os.path.join(folder, "state")
        with Follower(save=state) as one:
            assert one.commit(first) == [Reply(Id(0, 0), ())]
            assert (one.came, one.waiting) == (2, 1)
        assert one.waiting_list == [Waiting(Id(0, 1), Id(1, 0))] and one.store == {"k": 5}
        with Follower(state=state) as other:
            assert (other.came, other.waiting) == (0, 1)
            assert other.commit(first) == [] and other.commit(second.split("\n")) == replies
        assert other.waiting_list == [Waiting(Id(2, 1), Id(2, 0))] and other.store == {"k": 7}
    with Follower(state=report([first.encode()])) as other:
        assert other.commit(first + "\n" + second) == replies and other.waiting == 1
    whole = report([examples / "arriving.jsonl"])
    assert (other.waiting_list, other.store) == (whole.waiting, whole.store)


def compare_examples():
    """Compares answers with the examples beside the module."""
    examples = pathlib.Path(epx.__file__).resolve().parent.parent / "examples"
    logs = sorted(examples.glob("replicas/*.jsonl"))
    test_answers(examples, logs)
    test_histories(logs)
    test_findings(examples, logs)
    test_follower(examples)
    print("epx.py: the answers are those of examples/, and the findings as well")


def test(program, seed):
    """Compares answers of a program, and tries followers."""
    epx.PROGRAM = program
    compare_examples()
    follower_test.test(seed)
    return 0
