"""The test of contrib/texts: answers turned back must be those of epx over the logs as they were,
and those of a plain execution of commands over JSON values. A module, and no tool itself."""

import collections
import importlib.machinery
import importlib.util
import json
import pathlib
import random
import re
import subprocess
import tempfile

import renaming
import texts_back
import texts_refusals
from command_line import TOP, counted
from fuzzing.clusters import cluster
from fuzzing.model import conflict
from logs import accesses
from texts_oracle import Store, parsed, places_in, plain, rows_of, wanted_audit, wanted_levels
from texts_oracle import wanted_report
from trials import write_logs


def load_tool():
    """The tool as a module, whose file has no ending."""
    loader = importlib.machinery.SourceFileLoader("texts_tool", str(TOP / "contrib/texts"))
    module = importlib.util.module_from_spec(importlib.util.spec_from_loader("texts_tool", loader))
    loader.exec_module(module)
    return module


TOOL = load_tool()
SHORT = ("a", "b", "c", "long:0", "long:x", "é\u0001", 'quote"', "\u007f\U0001f600", "k" * 64)
LONG = (*SHORT[:5], "é" * 33, "x" * 65, "x" * 66, "y" * 3000)
WHOLE = (0, 1, 7, -3, 10, 100, 2**63 - 1, -(2**63))
# JSON texts of values: those of a group are equal, and others only look so.
GROUPS = (
    ("1", "1.0", "10e-1"), ('"1"',), ("true",), ("false",), ('""',), ('"1.0"',), ("[]", "[ ]"),
    ('"a,\\"b"', '"\\u0061,\\"b"'), ('["a","b"]',), ('["a,\\"b"]',), ("{}",), ("[[]]",),
    ("[1]", "[1e0]"),
    ('{"x":1,"y":[null]}', '{"y":[null],"x":1.0}'), ('{"y":[null,null],"x":1}',),
    ("0.1", "0.10"), ("0.1000000000000000055",), ("1e300", "10.0e299"), ("-0", "0", "0e5"),
    ("123456789012345678901234567890", "1.2345678901234567890123456789e29"),
    ("123456789012345678901234567891",), ('"é\\u0001"',),
)  # fmt: skip


def whole_value(rng):
    return str(rng.choice(WHOLE))


def values_of(rng):
    """What draws a value out of few, of which some are equal."""
    pool = [text for group in rng.sample(GROUPS, 3) for text in group]
    return lambda rng: rng.choice(pool)


def operation(rng, keys, value, with_is):
    """The JSON text of an operation."""
    quoted = lambda: json.dumps(rng.choice(keys), ensure_ascii=rng.random() < 0.5)
    kind = rng.choice(("get", "put", "put", "del", "copy", "is" if with_is else "get"))
    more = {"put": lambda: [value(rng)], "copy": lambda: [quoted()]}
    more["is"] = lambda: [rng.choice(("null", value(rng)))]
    return f'["{kind}",{",".join([quoted(), *more.get(kind, list)()])}]'


def batch(rng, keys, value, most, longest):
    """The texts of the operations of a command. A batch in parts has no `is`."""
    count = rng.choice((0, 1, 2, 3, rng.randint(0, most), rng.randint(0, longest)))
    chosen = rng.sample(keys, rng.randint(1, 3))
    return [operation(rng, chosen, value, count <= most) for _ in range(count)]


def commands_of(rng, keys, value, most, longest, is_covered):
    """The commands of a cluster: by place a sequence number, dependencies and operations."""
    places = [(replica, number) for replica in range(rng.randint(1, 4))
              for number in rng.sample(range(12), rng.randint(0, 9))]  # fmt: skip
    rng.shuffle(places)
    commands = {}
    for place in places:
        ops = batch(rng, keys, value, most, longest)
        deps = set(rng.sample(places, min(len(places), rng.choice((0, 1, 1, 2)))))
        deps |= {(rng.randrange(4), rng.randrange(12)) for _ in range(rng.random() < 0.1)}
        if is_covered:
            own = list(map(json.loads, ops))
            for other, (_, _, others) in commands.items():
                if conflict(own, list(map(json.loads, others))):
                    deps.add(other)
        commands[place] = rng.randint(0, 5), sorted(deps), ops
    return commands


def line_text(place, seq, deps, ops, status=""):
    deps = json.dumps([list(it) for it in deps])
    return (f'{{"r":{place[0]}, "i":{place[1]},"seq":{seq},{status}"more":1.5,"deps":{deps},'
            f'"ops":[{",".join(ops)}]}}')  # fmt: skip


def logs_of(rng, commands):
    """The lines of logs that have these commands, some of them several times."""
    logs = [[] for _ in range(rng.randint(1, 3))]
    for place, (seq, deps, ops) in commands.items():
        for lines in rng.choices(logs, k=rng.randint(1, 3)):
            deps = rng.sample(deps, len(deps)) + rng.choices([place, *deps], k=rng.randrange(2))
            status = rng.choice(("", '"status":"executed",'))
            lines.append(line_text(place, seq, deps, ops, status))
    for lines in logs:
        for _ in range(rng.randrange(4)):
            early = {"status": "accepted", "r": rng.randrange(4), "i": rng.randrange(14), "seq": 3}
            early = json.dumps(early | {"ops": "any"})
            lines.insert(rng.randint(0, len(lines)), rng.choice(("", " \t", early)))
    return logs


def differing(rng, logs):
    """Logs of which some lines say another thing than others do."""
    return [[changed(rng, line) if rng.random() < 0.4 else line for line in lines]
            for lines in logs]  # fmt: skip


def changed(rng, line):
    """A line with another sequence number, other dependencies or another operation."""
    found = json.loads(line) if line.strip() else {"status": "accepted"}
    if found.get("status") == "accepted":
        return line
    kind = rng.choice(("seq", "deps", "ops"))
    if kind == "ops" and found["ops"]:
        found["ops"][rng.randrange(len(found["ops"]))] = ["del", rng.choice("xy")]
    found |= {"seq": {"seq": 9}, "deps": {"deps": [[3, 13]]}}.get(kind, {})
    return json.dumps(found)


def ask(program, *words):
    """What the program prints. Where it refuses, the line of the fault."""
    ended = subprocess.run([program, *map(str, words)], capture_output=True, check=False)
    return ended.stdout if ended.returncode == 0 else ended.stderr


class Side:
    """One of two sides that are asked the same: the logs as they were, or the renamed ones."""

    def __init__(self, program, paths, order, base, names=None):
        self.program, self.paths, self.names = program, paths, names
        self.order, self.base = order, base

    def instance(self, at):
        return f"{at[0]}.{at[1] * (self.names.parts if self.names else 1)}"

    def key(self, key):
        return json.loads(self.names.key_of(key)) if self.names else key

    def ask(self, question):
        return ask(self.program, *question(self))


def questions(rng, commands, keys):
    """What both sides are asked: words of the program, for a side, by a name."""
    for name in ("run", "order", "levels", "blockers", "graph", "audit", "compare"):
        yield name, lambda side, name=name: [name, *side.paths]
    for words in (["check"], ["check", "--prefix"]):
        yield "check", lambda side, words=words: [*words, side.order, *side.paths]
    yield "pairs", lambda side: ["audit", "--all", *side.paths]
    yield "resume", lambda side: ["resume", side.base, *side.paths]
    places = [*commands, (0, 3), (9, 1)]
    for at in rng.sample(places, min(6, len(places))):
        yield "why", lambda side, at=at: ["why", side.instance(at), *side.paths]
    for at, other in [rng.choices(places, k=2) for _ in range(6)] + [places[:1] * 2]:
        yield "path", lambda side, at=at, other=other: [
            "why", side.instance(at), "--reaches", side.instance(other), *side.paths
        ]  # fmt: skip
    for key in rng.sample(keys, min(3, len(keys))):
        for words in ([], ["--reads"]):
            yield "trace", lambda side, key=key, words=words: [
                "trace", *words, "--", side.key(key), *side.paths
            ]  # fmt: skip


def list_of(rng, program, paths):
    """A list: an order, often damaged."""
    pairs = [tuple(json.loads(line)[1:3]) for line in ask(program, "order", *paths).split(b"\n")
             if line.startswith(b'["order"')]  # fmt: skip
    damage = rng.randrange(6)
    if damage == 1 and pairs:
        pairs = pairs[: rng.randrange(len(pairs))]
    elif damage == 2 and len(pairs) > 1:
        at = rng.randrange(len(pairs) - 1)
        pairs[at : at + 2] = pairs[at + 1], pairs[at]
    elif damage == 3:
        rng.shuffle(pairs)
    elif damage == 4:
        extra = rng.choice([*pairs, (7, 7)])
        pairs.insert(rng.randint(0, len(pairs)), extra)
    lines = [f"[{replica},{number}]" for replica, number in pairs]
    for _ in range(rng.randrange(3)):
        lines.insert(rng.randint(0, len(lines)), " ")
    return "".join(line + "\n" for line in lines)


class Count:
    """What was compared, and what could not be turned back, by the names of the questions."""

    def __init__(self):
        self.same, self.refused, self.wrong = collections.Counter(), collections.Counter(), 0

    def wrong_answer(self, what, seed, found, wanted):
        print(f"WRONG: {what} of the cluster of seed {seed}\nfound  {found}\nwanted {wanted}")
        self.wrong += 1

    def compare(self, what, seed, found, wanted):
        if found == wanted:
            self.same[what] += 1
        else:
            self.wrong_answer(what, seed, found, wanted)


def may_refuse(what, names, wanted):
    """Whether an answer may not say enough to be turned back."""
    if names.parts == 1 or what not in ("path", "audit", "pairs"):
        return False
    row = json.loads(wanted.splitlines()[0])
    if what == "pairs":
        return row[0] == "uncovered"
    if what == "path":
        return row[0] == "none" or row[1] == row[-1] and len(row) - 2 >= names.parts
    return row[0] == "uncovered" and tuple(row[1:3]) in names.cut


def turned(folder, names, text, is_trace=False):
    try:
        return texts_back.turn_back(folder, names, text, is_trace).encode(), None
    except texts_back.BadAnswer as error:
        return None, str(error)


def fault_back(parts, text):
    """The text of a fault of lines that disagree, with the instance and the lines as they were."""
    text = re.sub(r"\.(\d+) differs", lambda it: f".{int(it[1]) // parts} differs", text)
    return re.sub(r"line (\d+)", lambda it: f"line {(int(it[1]) - 1) // parts + 1}", text)


def compare_sides(count, seed, sides, asked):
    """Asks both sides, and compares the answers."""
    plain, renamed = sides
    folder = renamed.paths[0].parent
    for what, question in asked:
        wanted, text = plain.ask(question), renamed.ask(question)
        if wanted.startswith(b"epx: fault"):
            found = fault_back(renamed.names.parts, text.decode())
            wanted = wanted.decode()
            if renamed.names.parts > 1:
                # another part may differ first, and in another line
                found, wanted = (it.split(" and ")[0] for it in (found, wanted))
            count.compare(f"{what} refused", seed, found, wanted)
            continue
        found, why = turned(folder, renamed.names, text, what == "trace")
        if why and may_refuse(what, renamed.names, wanted):
            count.refused[what] += 1
        else:
            count.compare(what, seed, found or (why or "").encode(), wanted)


def sides_of(rng, program, folder, logs, most, hidden=None):
    """Both sides of logs. Where epx cannot read them, the plain side has other lines. The base is
    the report of the first log, which is turned back and then renamed with all logs."""
    paths = write_logs(folder / "logs", logs)
    plain = write_logs(folder / "plain", hidden) if hidden else paths
    order, out, earlier = folder / "order.list", folder / "out", folder / "earlier"
    order.write_text(list_of(rng, program, plain))
    bases, names = (plain[0].parent / "base", folder / "base"), renaming.Renaming(1, most)
    bases[0].write_bytes(ask(program, "run", plain[0]))
    TOOL.rename(paths[:1], earlier, names)
    text, _ = turned(earlier, renaming.load(earlier), ask(program, "run", earlier / paths[0].name))
    bases[1].write_bytes(text or ask(program, "run"))
    names = TOOL.rename(paths, out, renaming.Renaming(1, most), [order], bases[1])
    renamed = [out / path.name for path in paths]
    return Side(program, plain, order, bases[0]), Side(
        program, renamed, out / order.name, out / bases[1].name, names
    )


def exact_holds(count, program, seed, folder):
    """Compares answers with those over logs that epx reads itself, in parts of few operations."""
    rng = random.Random(seed)
    most = rng.choice((1, 2, 3, 5, 20, 64))
    longest = min(64, most * rng.choice((1, 2, 5)))
    keys = rng.sample(SHORT, rng.randint(3, 6))
    commands = commands_of(rng, keys, whole_value, most, longest, rng.random() < 0.5)
    sides = sides_of(rng, program, folder, logs_of(rng, commands), most)
    compare_sides(count, seed, sides, questions(rng, commands, keys))


def damaged_holds(count, program, seed, folder):
    """Compares comparisons of logs that disagree, and the faults of runs, in parts of few
    operations."""
    rng = random.Random(seed)
    most = rng.choice((1, 2, 5, 64))
    longest = min(64, most * rng.choice((1, 3, 5)))
    commands = commands_of(rng, SHORT, whole_value, most, longest, False)
    paths = write_logs(folder / "logs", differing(rng, logs_of(rng, commands)))
    names = TOOL.rename(paths, folder / "out", renaming.Renaming(1, most))
    renamed = [folder / "out" / path.name for path in paths]
    sides = Side(program, paths, None, None), Side(program, renamed, None, None, names)
    asked = [(name, lambda side, name=name: [name, *side.paths]) for name in ("compare", "run")]
    compare_sides(count, seed, sides, asked)


def texts_hold(count, program, seed, folder):
    """Compares answers over texts, long keys and long batches with those of epx over the logs
    without operations, and with a plain execution."""
    rng = random.Random(seed)
    keys = rng.sample(LONG, rng.randint(3, 6))
    longest = rng.choice((3, 64, 128, 200, 500))
    commands = commands_of(rng, keys, values_of(rng), 64, longest, rng.random() < 0.5)
    logs = logs_of(rng, commands)
    hidden = [[emptied(line) for line in lines] for lines in logs]
    sides = sides_of(rng, program, folder, logs, 64, hidden)
    names = sides[1].names
    seen = ("order", "graph", "check", "why", "path")
    asked = [it for it in questions(rng, commands, keys) if it[0] in seen]
    compare_sides(count, seed, sides, asked)
    back = lambda *words: turned(folder / "out", names, ask(program, *words),
                                 words[0] == "trace")[0] or b""  # fmt: skip
    paths = sides[1].paths
    found, of_all = back("run", *paths), ask(program, "order", *sides[0].paths)
    traces, order = collections.defaultdict(list), places_in(of_all, "order")
    wanted = wanted_report(of_all, "order", Store(commands), traces)
    count.compare("run", seed, rows_of(found), wanted)
    count.compare("levels", seed, [it for it in rows_of(back("levels", *paths))
                  if it[1][0][1] == "level"], wanted_levels(order, commands))  # fmt: skip
    for key in keys:
        for words in ([], ["--reads"]):
            rows = [row for row in traces[key] if words or row[1][0][1] == "write"]
            text = back("trace", *words, "--", sides[1].key(key), *paths)
            count.compare("trace", seed, rows_of(text), rows)
    store = Store(commands)
    wanted_report(ask(program, "order", sides[0].paths[0]), "order", store, traces)
    resumed = sides[0].ask(lambda side: ["resume", side.base, *side.paths])
    wanted = wanted_report(resumed, "reply", store, traces)
    count.compare("resume", seed, rows_of(back("resume", sides[1].base, *paths)), wanted)
    compare_audit(count, seed, folder / "out", sides[1], wanted_audit(commands))


def compare_audit(count, seed, folder, side, wanted):
    found, why = turned(folder, side.names, side.ask(lambda side: ["audit", *side.paths]))
    if why and may_refuse("audit", side.names, wanted):
        count.refused["audit"] += 1
    else:
        count.compare("audit", seed, found or why, wanted.encode())


def emptied(line):
    """A line without its operations."""
    if not line.strip():
        return line
    found = json.loads(line)
    return json.dumps(found | {"ops": []})


def numbered(rng, commands, only_keys):
    """A log whose dependencies are a number for each replica, with its commands or with what
    epx can read that uses the same keys."""
    lines = []
    for (replica, number), (seq, _, ops) in commands.items():
        line = {"r": replica, "i": number, "seq": seq}
        line["deps"] = [rng.choice((None, -1, rng.randrange(12))) for _ in range(4)]
        if only_keys:
            used = accesses(map(json.loads, ops)).items()
            ops = [json.dumps(["put", key[-30:], 0] if writes else ["get", key[-30:]])
                   for key, writes in used]  # fmt: skip
        lines.append(json.dumps(line)[:-1] + f',"ops":[{",".join(ops)}]}}')
    return lines


def expands_alike(count, program, seed, folder):
    """Compares what contrib/expand writes for logs of texts with what it writes for logs that epx
    reads, and asks epx about those that contrib/texts then writes."""
    rng, word = random.Random(seed), ("--all", "--conflicting")[seed % 2]
    keys = ("a", "b", "c", "é" * 33 + "x", "x" * 65 + "y")
    commands = commands_of(rng, keys, values_of(rng), 64, 300, False)
    found = []
    for name, only_keys in ("texts", False), ("keys", True):
        (folder / name).write_text("\n".join(numbered(random.Random(seed), commands, only_keys)))
        words = ["--texts"] * (not only_keys)
        words = [TOP / "contrib/expand", word, *words, folder / name, "--out", folder / "out"]
        subprocess.run(words, check=True, capture_output=True)
        lines = (folder / "out" / name).read_text().splitlines()
        found.append([[json.loads(line)[it] for it in ("r", "i", "deps")] for line in lines])
    count.compare("expanded", seed, *found)
    ops = [plain(parsed(line)["ops"]) for line in (folder / "out/texts").read_text().splitlines()]
    wanted = [plain([*map(parsed, ops)]) for _, _, ops in commands.values()]
    count.compare("expanded", seed, ops, wanted)
    names = TOOL.rename([folder / "out/texts"], folder / "renamed")
    wanted = ask(program, "audit", folder / "out/keys")
    text, why = turned(folder / "renamed", names, ask(program, "audit", folder / "renamed/texts"))
    if why and may_refuse("audit", names, wanted):
        count.refused["expanded"] += 1
    else:
        count.compare("expanded", seed, text or why, wanted)


def give_texts(rng, logs):
    """Gives the commands of a cluster values of texts, longer keys and, to some, long batches."""
    value = values_of(rng)
    for command in {id(line): line for lines in logs for line in lines}.values():
        ops = [["put" if more else name, key * 30, *(json.loads(value(rng)) for _ in more)]
               for name, key, *more in command["ops"]]  # fmt: skip
        command["ops"] = ops * rng.choice((1, 1, 1, 30))


def composed(program, folder, word, logs, base=None):
    """The report over logs that are expanded and then renamed, turned back. A base is for both."""
    paths = write_logs(folder / "logs", [map(json.dumps, lines) for lines in logs])
    words = [TOP / "contrib/expand", word, "--texts", *paths, "--out", folder / "pairs"]
    words += ["--base", base] if base else []
    subprocess.run(words, check=True, capture_output=True)
    out = folder / "out"
    names = TOOL.rename([folder / "pairs" / path.name for path in paths], out, base=base)
    asked = ["resume", out / base.name] if base else ["run"]
    return turned(out, names, ask(program, *asked, *(out / path.name for path in paths)))[0]


BOTH = "bases with replies in them and after them"


def resumes_alike(count, program, seed, folder):
    """Compares the report over logs of a cluster, which lack an instance, with what comes of a
    first part of them, and of what is left with the report of that part as a base."""
    rng, word = random.Random(seed), ("--all", "--conflicting")[seed % 2]
    logs = [[line for line in lines if (line["r"], line["i"]) != (0, 100)]
            for lines in cluster(rng, 3, 400)]  # fmt: skip
    give_texts(rng, logs)
    whole = composed(program, folder / "whole", word, logs)
    early = [[line for line in lines if line["i"] < 60] for lines in logs]
    report = composed(program, folder / "early", word, early)
    (folder / "base").write_bytes(report)
    done = places_in(report, "reply")
    late = [[line for line in lines if (line["r"], line["i"]) not in done] for lines in logs]
    found = composed(program, folder / "late", word, late, folder / "base")
    # A cluster may be one great cycle, of which nothing is executed in one of the parts.
    count.same[BOTH] += bool(done and places_in(found, "reply") and places_in(found, "waiting"))
    for kind in ("reply", "waiting", "store"):
        ended, before, wanted = ({row for row in rows_of(text) if row[1][0][1] == kind}
                                 for text in (found, report, whole))  # fmt: skip
        count.compare("composed", seed, ended | before if kind == "reply" else ended, wanted)


def partner_is_refused(count, program, folder):
    """Asks for the pair of an audit whose first instance has a lower partner in its second part
    than in its first."""
    lines = [line_text((0, 0), 1, [], ['["put","a",1]', '["put","b",1]'])]
    lines += [line_text((1, at), 1, [], [f'["get","{key}"]']) for at, key in enumerate("ba")]
    names = TOOL.rename(write_logs(folder / "logs", [lines]), folder / "out",
                        renaming.Renaming(1, 1))  # fmt: skip
    wanted = ask(program, "audit", folder / "logs/0.jsonl")
    text = ask(program, "audit", folder / "out/0.jsonl")
    found, _ = turned(folder / "out", names, text)
    count.compare("pairs", 0, (wanted, text, found), (b'["uncovered",0,0,1,0]\n',
                  b'["uncovered",0,0,1,2]\n', None))  # fmt: skip


def test(program, seed):
    """Compares answers turned back, and tries what must be refused."""
    rng, count = random.Random(seed), Count()
    calls = {exact_holds: 80, damaged_holds: 80, texts_hold: 80, expands_alike: 20,
             resumes_alike: 10}  # fmt: skip
    cases = [(call, seed) for call, often in calls.items()
             for seed in rng.sample(range(1_000_000), often)]  # fmt: skip
    for call, number in counted("clusters", cases):
        with tempfile.TemporaryDirectory() as folder:
            call(count, program, number, pathlib.Path(folder))
        if count.wrong:
            return 1
    if count.same[BOTH] < 5:
        count.wrong_answer(BOTH, seed, count.same[BOTH], "5 or more")
    with tempfile.TemporaryDirectory() as folder:
        partner_is_refused(count, program, pathlib.Path(folder))
    with tempfile.TemporaryDirectory() as folder:
        wrong, tried = texts_refusals.refusals(pathlib.Path(folder))
    for what, number in sorted(count.same.items()):
        print(f"{what}: {number} answers, {count.refused[what]} that do not say enough")
    print(f"contrib/texts: {len(cases)} clusters, {count.same.total()} answers turned back are the "
          f"same, {tried} refusals, {wrong} of them wrong")  # fmt: skip
    return 1 if wrong or count.wrong else 0
