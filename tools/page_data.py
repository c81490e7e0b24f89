"""The data of a page, made of the answers of epx. A module, and no tool itself.

All numbers that may be larger than those that JavaScript has exactly are texts."""

import json
import re

NODE = re.compile(
    r'^  (?:subgraph "cluster (?P<leader>\S+)" \{ )?"(?P<id>\d+\.\d+)" \['
    r'(?:label="\S+depth (?P<depth>\d+), seq (?P<seq>\d+)")?(?:, )?(?:style=(?P<style>\w+))?\];',
    re.M,
)
ARROW = re.compile(r'^  "(\S+)" -> "(\S+)";$', re.M)
# Neither a number nor null, which are values.
PLAIN_KEY = re.compile(r"(?!null\Z)[^\W\d][\w.:/@#-]*")
KINDS = {None: "executed", "dashed": "waiting", "dotted": "missing"}


def pair_of(name):
    """The replica and the number of an Id, by which Ids are in order."""
    return tuple(map(int, name.split(".")))


def shown_key(key):
    """A key as the page shows it: in quotes where it could be read wrongly."""
    if PLAIN_KEY.fullmatch(key):
        return key
    text = json.dumps(key, ensure_ascii=False)
    return "".join(c if c.isprintable() else f"\\u{ord(c):04x}" for c in text)


def shown_operation(op):
    keys = 2 if op[0] == "copy" else 1
    words = [shown_key(word) for word in op[1 : 1 + keys]]
    words += ["null" if word is None else str(word) for word in op[1 + keys :]]
    return " ".join([op[0], *words])


def shown_reply(kind, value):
    """The end of a reply line, as the page shows it."""
    return f"{kind} {json.dumps(value)}"


def boxes_of(answers):
    """A box for each node of the graph: the executed ones in their order, those that wait, with
    the members of a component side by side, and the missing ones."""
    found = {kind: [] for kind in KINDS.values()}
    for node in NODE.finditer(answers.graph):
        box = {"id": node["id"], "kind": KINDS[node["style"]]}
        box |= {name: node[name] for name in ("depth", "seq") if node[name]}
        if node["leader"]:
            box["frame"] = node["leader"]
        found[box["kind"]].append(box)
    ranks = {f"{row[1]}.{row[2]}": at for at, row in enumerate(answers.order[1:])}
    found["executed"].sort(key=lambda box: ranks[box["id"]])
    found["waiting"].sort(key=rank_of_waiting)
    return [box for boxes in found.values() for box in boxes]


def rank_of_waiting(box):
    return pair_of(box.get("frame", box["id"])), int(box["seq"]), pair_of(box["id"])


def add_dependencies(boxes, graph):
    places = {box["id"]: at for at, box in enumerate(boxes)}
    for box in boxes:
        box["deps"] = []
    for start, end in ARROW.findall(graph):
        boxes[places[start]]["deps"].append(places[end])


def add_commands(boxes, answers):
    """Adds the operations, the replies, and what each waiting instance needs."""
    replies = {f"{row[1]}.{row[2]}": row[3:] for row in answers.run if row[0] == "reply"}
    needs = {f"{row[1]}.{row[2]}": f"{row[3]}.{row[4]}"
             for row in answers.run if row[0] == "waiting"}  # fmt: skip
    for box in boxes:
        if box["kind"] != "missing":
            box["ops"] = [shown_operation(op) for op in answers.ops[box["id"]]]
        if box["kind"] == "executed":
            kind, value = replies[box["id"]]
            box |= {"reply": shown_reply(kind, value), "aborts": kind == "abort"}
        elif box["kind"] == "waiting":
            box["needs"] = needs[box["id"]]


def add_writes(boxes, writes):
    """Adds what each command wrote. Returns all keys, in byte order."""
    keys = sorted({key for pairs in writes.values() for key, _ in pairs}, key=str.encode)
    places = {key: at for at, key in enumerate(keys)}
    for box in boxes:
        pairs = writes.get(box["id"], ())
        box["writes"] = [[places[key], None if value is None else str(value)]
                         for key, value in pairs]  # fmt: skip
    return keys


def add_blockers(boxes, rows):
    """Adds how many instances wait for each missing one alone, and how many name it. Returns how
    many wait for several."""
    several, by_id = 0, {box["id"]: box for box in boxes}
    for kind, *row in rows:
        if kind == "blocks":
            by_id[f"{row[0]}.{row[1]}"] |= {"alone": row[2], "named": row[3]}
        elif kind == "several":
            several = row[0]
    return several


def add_calls(boxes, answers):
    """Adds the calls of a history. Returns what is found of them, as rows with Ids."""
    for box in boxes:
        call = answers.calls.get(box["id"])
        if call:
            times = [None if time is None else str(time) for time in call[:2]]
            box["call"] = {"invoked": times[0], "returned": times[1]}
            if call[2:]:
                box["call"]["reply"] = shown_reply(*call[2:])
    named = [[kind, [f"{row[at]}.{row[at + 1]}" for at in range(0, len(row), 2)]]
             for kind, *row in answers.linear]  # fmt: skip
    return [[kind, *ids] for kind, ids in named if kind != "linear"]


def data_of(answers):
    """All that a page shows."""
    boxes = boxes_of(answers)
    add_dependencies(boxes, answers.graph)
    add_commands(boxes, answers)
    keys = add_writes(boxes, answers.writes)
    replicas = sorted({pair_of(box["id"])[0] for box in boxes})
    for box in boxes:
        box["lane"] = replicas.index(pair_of(box["id"])[0])
    _, executed, _, waiting, _, components = answers.run[0]
    data = {"logs": answers.logs, "executed": executed, "waiting": waiting,
            "components": components, "lanes": replicas, "keys": keys,
            "shown": [shown_key(key) for key in keys], "boxes": boxes}  # fmt: skip
    if answers.blockers is not None:
        data["several"] = add_blockers(boxes, answers.blockers)
    if answers.linear is not None:
        data |= {"history": answers.history, "findings": add_calls(boxes, answers)}
    return data
