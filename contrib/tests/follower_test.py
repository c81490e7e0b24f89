"""The test of `Follower` of `epx.py`: random streams, threads, asyncio, refusals and crashes. A
module, and no tool itself."""

import asyncio
import concurrent.futures
import functools
import json
import os
import pathlib
import random
import signal
import tempfile

import epx
from command_line import counted
from fuzzing.lines import text_of
from fuzzing.streams import batches_of, counts, covered_instances
from trials import raised

STREAMS = 100
# More bytes than a pipe has room for.
MANY = 20_000


def line_of(instance):
    return text_of([instance])


def forms_of(batch):
    """The forms in which a batch may be handed in."""
    text = text_of(batch)
    yield text
    yield text.encode()
    yield [line_of(one) for one in batch]
    yield iter(["", *text.encode().split(b"\n"), " \t\r\n"])
    yield [one | {"deps": sorted(map(list, one["deps"]))} for one in batch]


def random_stream(seed, least=1, most=60):
    """A random source, the instances of a covered log that may lack some, and the report of all
    of them."""
    rng = random.Random(seed)
    instances = covered_instances(rng, rng.randrange(least, most))
    lost = rng.sample(instances, min(len(instances), rng.randrange(3)))
    known = [one for one in instances if one not in lost]
    return rng, known, epx.report([text_of(known).encode()])


def by_id(replies):
    return sorted(replies, key=lambda one: one.id)


def follow(rng, batches, state):
    """Follows batches from one saved state to the next. Returns all replies, what was counted, and
    the last follower."""
    replies, counted, start, at = [], [], None, 0
    while at < len(batches) or start is None:
        end = rng.randrange(at, len(batches)) + 1 if batches else 0
        with epx.Follower(state=start, save=state, workers=rng.randrange(1, 5)) as follower:
            for batch in batches[at:end]:
                found = follower.commit(rng.choice([*forms_of(batch)]))
                replies += found
                counted.append([follower.came, len(found), follower.waiting])
        start, at = rng.choice([state, state.read_bytes()]), end
    return replies, counted, follower


def test_stream(seed, folder):
    """Compares a stream that is cut with one report."""
    rng, known, report = random_stream(seed)
    batches = batches_of(rng, known)
    replies, counted, follower = follow(rng, batches, folder / "state")
    assert by_id(replies) == by_id(report.replies) and counted == counts(batches)
    assert (follower.waiting_list, follower.store) == (report.waiting, report.store)


def test_threads():
    """Commits from several threads and tasks, which must share all replies."""
    rng, known, report = random_stream(1, 500, 600)
    batches = batches_of(rng, known)
    with epx.Follower() as one, concurrent.futures.ThreadPoolExecutor(8) as pool:
        parts = [*pool.map(one.commit, map(text_of, batches))]
    assert by_id(sum(parts, [])) == by_id(report.replies) and one.store == report.store

    async def commit_all(other):
        return await asyncio.gather(*map(other.commit_async, map(text_of, batches)))

    with epx.Follower() as other:
        parts = asyncio.run(commit_all(other))
    assert by_id(sum(parts, [])) == by_id(report.replies) and other.store == report.store


def chain(count):
    """Instances of one replica, each after the one before it."""
    deps = [{(0, number - 1)} if number else set() for number in range(count)]
    ops = [["add", "k", 1], ["get", "k"]]
    return [{"r": 0, "i": number, "seq": number, "deps": deps[number], "ops": ops}
            for number in range(count)]  # fmt: skip


def test_large():
    """Hands in more than a pipe holds, good and bad, and reads as much."""
    lines = [line_of(one) for one in chain(MANY)]
    with epx.Follower() as follower:
        found = [one.values for one in follower.commit(lines)]
    assert found == [(number + 1,) for number in range(MANY)]
    bad = [*lines[:7], "{}", *lines[7:]]
    fault = raised(epx.Fault, lambda: epx.Follower().commit(bad))
    assert (fault.number, fault.status, fault.index, len(fault.batch)) == (4, 1, 7, MANY + 1)


def test_refusals():
    """Refuses batches, which must name the line at fault, and nothing after them."""
    lines = [line_of(one) for one in chain(5)]
    follower = epx.Follower()
    follower.commit(lines[:1])
    follower.commit(lines[2:])
    other = lines[3].replace('"seq": 3', '"seq": 9')
    fault = raised(epx.Fault, lambda: follower.commit(["", lines[1], other]))
    assert (fault.number, fault.status, fault.index) == (6, 1, 1)
    assert fault.batch == [lines[1].strip().encode(), other.strip().encode()]
    assert str(raised(ValueError, lambda: follower.commit([]))) == "the follower is closed"
    follower.close()
    follower.kill()
    state = json.dumps(["state", "runs", 0, "waiting", 1, "store", 0]) + "\n" + lines[3]
    fault = raised(epx.Fault, lambda: epx.Follower(state.encode()).commit([lines[2], other]))
    assert (fault.number, fault.index) == (6, 1) and "log 1 line 2 and log 0 line 3" in str(fault)
    with epx.Follower() as follower:
        raised(AttributeError, lambda: follower.commit([None]))
        raised(ValueError, lambda: follower.commit("\ud800"))
        assert len(follower.commit(lines)) == 5  # what was refused before it was written


def test_states(folder):
    """Tries states that cannot be read, and one that cannot be saved."""
    for start, number in [(folder / "none", 7), (b"[]\n", 9), (b"", 9)]:
        fault = raised(epx.Fault, functools.partial(epx.Follower, start))
        assert (fault.number, fault.batch, fault.index) == (number, [], None)
    assert raised(epx.Fault, lambda: epx.Follower(workers=0)).status == 2
    follower = epx.Follower(save=folder)
    follower.commit(map(line_of, chain(3)))
    fault = raised(epx.Fault, follower.close)
    assert (fault.number, fault.status, fault.batch) == (8, 4, None)
    raised(ValueError, lambda: follower.commit([]))


def fail_in_body(follower, _):
    """Ends a block by an exception."""

    def block():
        with follower:
            raise KeyError

    raised(KeyError, block)


def end_program(follower, lines):
    """Ends the program while the follower is open."""
    os.kill(follower._process.pid, signal.SIGKILL)
    fault = raised(epx.Fault, lambda: follower.commit(lines))
    assert (fault.status, fault.number) == (-signal.SIGKILL, None) and fault.batch


def kill_while_committing(follower, lines):
    """Kills a follower while threads commit to it."""
    with concurrent.futures.ThreadPoolExecutor(4) as pool:
        calls = [pool.submit(follower.commit, lines) for _ in range(50)]
        follower.kill()
    said = [str(one.exception()) for one in calls if not isinstance(one.exception(), epx.Fault)]
    assert set(said) <= {"None", "the follower is closed"}


def refuse(follower, _):
    """Lets the program refuse a batch."""
    raised(epx.Fault, lambda: follower.commit("{}"))


def vanish(follower, _):
    """Closes the pipes, as happens where the process of the follower crashes."""
    follower._process.stdout.close()
    follower._process.stdin.close()
    assert follower._process.wait() == 4
    follower.kill()


def test_crashes(folder):
    """Ends followers in all ways but by closing them. What was saved before must stay, and lead to
    the end of the whole once all lines are handed in again."""
    rng, known, report = random_stream(2, 150, 200)
    state, batches = folder / "state", batches_of(rng, known)
    with epx.Follower(save=state) as first:
        before = sum((first.commit(text_of(batch)) for batch in batches[:9]), [])
    saved = state.read_bytes()
    for end in (fail_in_body, end_program, kill_while_committing, refuse, vanish):
        follower = epx.Follower(state, state)
        for batch in batches[9:20]:
            follower.commit(text_of(batch))
        end(follower, [line_of(one) for one in known])
        assert state.read_bytes() == saved
        again = rng.sample(known, len(known)) + rng.sample(known, 9)
        with epx.Follower(state) as other:
            after = other.commit(map(line_of, again))
        assert by_id(before + after) == by_id(report.replies)
        assert (other.waiting_list, other.store) == (report.waiting, report.store)


def test(seed):
    """Tries followers in a folder for a while."""
    with tempfile.TemporaryDirectory() as name:
        folder = pathlib.Path(name)
        for number in counted("random streams", range(STREAMS)):
            test_stream(seed * STREAMS + number, folder)
        test_threads()
        test_large()
        test_refusals()
        test_states(folder)
        test_crashes(folder)
    print(f"epx.py: followers of {STREAMS} streams, threads and crashes end as they should")
