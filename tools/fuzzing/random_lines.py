"""Random lines of logs in any words: those that commit an instance, that are bad in each way there
is, or that commit nothing. A module, and no tool itself."""

import json

from fuzzing.lines import MAX_LINE, OPERATIONS, is_key, is_null_or_value, is_value

KEYS = ["a", "b", "key", "é", "\u6f22\u5b57", 'q"\\/', "k" * 64, "\u0001", "\u00e9" * 32]
# For each reason of a member that is not as it must be: the member, and what it may be instead.
WRONG = {
    "Replica": ("r", [256, -1, 1.0, "0", None, True, [0], 10**30]),
    "Number": ("i", [2**64, -1, 0.5, "1", None, False, {}]),
    "Seq": ("seq", [2**64, -1, 2.0, "2", None, True, [1]]),
    "Status": ("status", ["chosen", "Committed", "commited", "", None, 1, ["committed"]]),
    "Deps": ("deps", [None, {}, 1, [1, 2], [[0]], [[0, 1, 2]], [[256, 0]], [[0, -1]], [["0", 1]],
                      [[0, 1.0]], [[0, 2**64]], [None], [[0, 1]] * 257]),
    "Ops": ("ops", [None, {}, "get", ["get", "a"], [[]], [["get"]], [["get", "a", 1]],
                    [["set", "a", 1]], [["put", "a"]], [["put", "a", None]], [["put", "a", "1"]],
                    [["put", "", 1]], [["put", "k" * 65, 1]], [["get", "\u00e9" * 33]],
                    [["put", "a", 2**63]], [["add", "a", -(2**63) - 1]], [["add", "a", 1.0]],
                    [["is", "a"]], [["is", "a", True]], [["floor", "a", None]],
                    [["copy", "a", 1]], [["copy", "a", ""]], [["GET", "a"]],
                    [["get", "a"]] * 65]),
}  # fmt: skip
NO_JSON = [b"{", b"}", b"x", b"nul", b"\xff", b'"\xc3\x28"', b"\xef\xbb\xbf{}", b"{} {}", b"[1,]",
           b"{'r':0}", b'{"r":NaN}', b'{"r":Infinity}', b'{"r":01}', b'{"r":0,}', b'{"r"}', b"\x0c",
           b'{"r":0 "i":0}', b"\x00", b'{"r":"\x01"}', b"+1", b".5"]  # fmt: skip
NO_OBJECT = [b"[]", b"0", b'"committed"', b"null", b"true", b"-0", b"1.5e3",
             b'[{"r":0,"i":0,"seq":1,"deps":[],"ops":[]}]']  # fmt: skip
BLANK = [b"", b" ", b"\t", b"\r", b"  \t \r", b" " * 70]


def operation(rng):
    name = rng.choice([*OPERATIONS])
    values = [0, 1, -1, 7, 2**63 - 1, -(2**63)]
    choices = {is_key: KEYS, is_value: values, is_null_or_value: [None, *values]}
    return [name, *(rng.choice(choices[test]) for test in OPERATIONS[name])]


def entry_of(rng, x, names):
    """What an instance may be committed as."""
    deps = rng.sample(names, min(len(names), rng.choice([0, 0, 1, 1, 2, 4])))
    deps += [(rng.choice([0, 9, 255]), rng.choice([0, 3, 2**64 - 1]))] * (rng.random() < 0.05)
    seq = rng.choice([0, 1, 2, 3, 2**64 - 1])
    ops = [operation(rng) for _ in range(rng.choice([0, 1, 1, 2, 3]))]
    return {"r": x[0], "i": x[1], "seq": seq, "deps": deps, "ops": ops}


def changed(rng, entry, names):
    """Another version of an instance, which differs in a member or two, or in none."""
    entry = dict(entry)
    for member in rng.sample(["seq", "deps", "ops"], rng.choice([0, 1, 1, 1, 2, 3])):
        other = entry_of(rng, (entry["r"], entry["i"]), names)
        if member == "ops" and len(entry["ops"]) > 1 and rng.random() < 0.5:
            other["ops"] = entry["ops"][::-1]
        entry[member] = other[member]
    return entry


def spelt(rng, value, gap):
    """A JSON text of a value, with this in some places between its parts, members in any order, and
    characters of texts written in one way or another."""

    def space():
        return gap if rng.random() < 0.7 else ""

    if isinstance(value, dict):
        members = list(value.items())
        rng.shuffle(members)
        parts = [spelt(rng, name, gap) + ":" + spelt(rng, part, gap) for name, part in members]
        text = "{" + ",".join(parts) + space() + "}"
    elif isinstance(value, (list, tuple)):
        text = "[" + ",".join(spelt(rng, part, gap) for part in value) + space() + "]"
    elif isinstance(value, str):
        text = json.dumps(value, ensure_ascii=rng.random() < 0.5)
        if gap and rng.random() < 0.2:
            text = '"' + "".join(f"\\u{ord(character):04x}" for character in value) + '"'
    else:
        text = json.dumps(value)
    return space() + text + space()


def same_deps(rng, entry):
    """The dependencies in another order, some of them twice, the instance itself among them."""
    deps = list(entry["deps"]) + [(entry["r"], entry["i"])] * (rng.random() < 0.3)
    deps += rng.choices(deps, k=rng.choice([0, 1, 2])) if deps else []
    rng.shuffle(deps)
    return deps


def line_of(rng, entry):
    """A line that commits this, in other words; some are as long as a line may be."""
    entry = entry | {"deps": same_deps(rng, entry)}
    if rng.random() < 0.5:
        entry["status"] = rng.choice(["committed", "executed"])
    if rng.random() < 0.2:
        entry["note"] = {"r": 300, "at": [1.5, None, "x"], "status": "accepted"}
    text = spelt(rng, entry, rng.choice(["", "", " ", "\t", " \r "]))
    if rng.random() < 0.1:
        # of members of one name the last counts
        text = text.replace("{", '{"seq":"none","ops":0,', 1)
    return text.encode().ljust(MAX_LINE if rng.random() < 0.002 else 0)


def open_line(rng, entry):
    """A line of an instance that is not committed yet, whose dependencies and operations do not
    count."""
    entry = entry | {"status": rng.choice(["accepted", "pre-accepted"])}
    if rng.random() < 0.3:
        entry[rng.choice(["deps", "ops"])] = None
    return spelt(rng, entry, rng.choice(["", " "])).encode()


def bad_line(rng, entry):
    """A reason, and a line that is bad for it; the members that are looked at later may be wrong
    too."""
    why = rng.choice(["NotJson", "NotJson", "NotObject", *WRONG])
    if rng.random() < 0.02:
        return "TooLong", line_of(rng, entry).ljust(MAX_LINE + 1)
    if why == "NotJson":
        whole_line = json.dumps(entry).encode()
        return why, rng.choice([*NO_JSON, whole_line[: rng.randrange(1, len(whole_line))]])
    if why == "NotObject":
        return why, rng.choice(NO_OBJECT)
    reasons = list(WRONG)
    for later in reasons[reasons.index(why) :]:
        member, others = WRONG[later]
        if later == why or rng.random() < 0.2:
            entry = entry | {member: rng.choice(others)}
    member = WRONG[why][0]
    if why != "Status" and rng.random() < 0.3:
        entry = {name: value for name, value in entry.items() if name != member}
    return why, spelt(rng, entry, rng.choice(["", " "])).encode()


def random_logs(rng):
    """The texts of some logs."""
    numbers = rng.choice([[0, 1, 2], range(6), range(10), [0, 1, 5, 6, 2**63, 2**64 - 1]])
    replicas = rng.sample([0, 1, 2, 9, 255], rng.randrange(1, 4))
    names = [(r, i) for r in replicas for i in numbers if rng.random() < 0.8]
    versions, lines = {}, {}
    for x in names:
        first = entry_of(rng, x, names)
        more = rng.choice([0, 0, 0, 0, 1, 2]) if rng.random() < 0.5 else 0
        versions[x] = [first, *(changed(rng, first, names) for _ in range(more))]
        lines[x] = [line_of(rng, entry) for entry in versions[x]]
    trouble = rng.choice([0, 0, 0.03, 0.1])
    texts = []
    for _ in range(rng.randrange(1, 6)):
        kept, log = rng.choice([1, 0.95, 0.7, 0.3]), []
        for x in names:
            for _ in range(rng.choice([1, 1, 1, 1, 2, 3]) if rng.random() < kept else 0):
                # mostly the first version, and mostly in the words of other logs
                which = rng.randrange(len(versions[x])) if rng.random() < 0.4 else 0
                is_known = rng.random() < 0.6
                log.append(lines[x][which] if is_known else line_of(rng, versions[x][which]))
            if rng.random() < trouble:
                log.append(rng.choice(BLANK))
            if rng.random() < trouble:
                log.append(open_line(rng, rng.choice(versions[x])))
            if rng.random() < trouble:
                log.append(bad_line(rng, versions[x][0])[1])
        if rng.random() < 0.5:
            rng.shuffle(log)
        text = b"".join(line + b"\n" for line in log)
        texts.append(text[:-1] if rng.random() < 0.3 else text)
    if rng.random() < 0.2:
        texts[-1] = texts[0]
    return texts
