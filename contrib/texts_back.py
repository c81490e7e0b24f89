"""Turns answers of epx over renamed logs back. A module of contrib/texts, and no tool itself.

Of an instance in K parts an answer has K lines one after another, since nothing is executed between
them. Counts and positions are K times those of the instance.
"""

import exact_json
import pictures_back
from logs import accesses, fault_of_members, is_blank, is_committed, is_text, is_whole, json_of
from logs import read_lines

# The lines of answers: what follows the first word. I is two numbers that name an instance, N a
# number, P a position, V a value or null, K a key. What x has is read by its own answer.
FORMS = {
    "executed": "NxNxN",
    "done": "I",
    "reply": "Ixx",
    "order": "INI",
    "level": "IN",
    "blocks": "INN",
    "several": "N",
    "waiting": "II",
    "store": "KV",
    "covered": "",
    "uncovered": "II",
    "lawful": "",
    "stranger": "P",
    "repeat": "P",
    "early": "P",
    "sequence": "P",
    "missing": "I",
    "ready": "IPNI",
    "needs": "IN",
    "needed": "IN",
    "none": "",
    "write": "IVV",
    "read": "IV",
    "log": "NNN",
    "bad": "NNx",
    "differs": "Ixx",
    "lacks": "NNNN",
}
# The place of the lines of a report, and of the lists that begin as it does.
STAGES = {"done": 0, "reply": 1, "order": 1, "level": 1, "waiting": 2, "store": 3}
COMPARED = {"log": 0, "bad": 1, "differs": 2, "lacks": 3, "missing": 4}
VERDICTS = ("covered", "uncovered", "lawful", "stranger", "repeat", "early", "sequence", "path")
VERDICTS += ("none",)
MEMBERS = ("seq", "deps", "ops")
FAULTS = ("TooLong", "NotJson", "NotObject", "Replica", "Number", "Seq", "Status", "Deps", "Ops")
UNKNOWN = "is no line of an answer, or not where it may be"


class BadAnswer(Exception):
    """Why an answer cannot be turned back, and the number of the line where it shows, or None."""

    def __init__(self, why, line=None):
        super().__init__(why)
        self.line = line


class Instance:
    """An instance that an answer names, and which part of it."""

    __slots__ = ("at", "part")

    def __init__(self, names, replica, number):
        if not is_whole(replica, 2**8) or not is_whole(number, 2**64):
            raise BadAnswer(UNKNOWN)
        number, self.part = divmod(number, names.parts)
        self.at = replica, number

    def __str__(self):
        return f"{self.at[0]},{self.at[1]}"

    def __eq__(self, other):
        return (self.at, self.part) == (other.at, other.part)

    def name(self):
        return f"{self.at[0]}.{self.at[1]}"


class Row:
    """A line of an answer: its first word, its number, and the rest as it is turned back."""

    __slots__ = ("kind", "line", "rest")

    def __init__(self, kind, line, rest):
        self.kind, self.line, self.rest = kind, line, rest

    def __str__(self):
        return f'["{self.kind}"{"".join([f",{it}" for it in self.rest])}]'

    def bad(self, why=UNKNOWN):
        return BadAnswer(why, self.line)


def number_in(_, value):
    if not is_whole(value, 2**64):
        raise BadAnswer(UNKNOWN)
    return value


def value_in(names, value):
    """The JSON text of the value that a number of an answer means."""
    if value is None:
        return "null"
    if not is_whole(value, 2**63):
        raise BadAnswer(UNKNOWN)
    if value >= len(names.values):
        raise BadAnswer(f"has the number {value}, and no value has it")
    return names.values[value]


def key_in(names, value):
    """The key that a key of an answer means."""
    if not is_text(value):
        raise BadAnswer(UNKNOWN)
    key = names.key_at(value)
    if key is None:
        raise BadAnswer(f"has the key {value}, and no key has it")
    return key


READERS = {
    "N": number_in,
    "P": lambda names, value: number_in(names, value) // names.parts,
    "V": value_in,
    "K": key_in,
    "x": lambda _, value: value,
}


def read_row(names, text, line):
    """A line of an answer."""
    value, why = json_of(text)
    kind = value[0] if not why and type(value) is list and value else None
    if kind == "path" and len(value) > 1:
        return Row(kind, line, [pair_in(names, it) for it in value[1:]])
    form = FORMS.get(kind) if type(kind) is str else None
    if kind == "missing" and len(value) == 4:
        form = "IN"
    if kind == "uncovered" and len(value) == 6:
        form = "IIK"
    if form is None or len(value) != 1 + len(form) + form.count("I"):
        raise BadAnswer("is a fault, and no answer" if text.startswith(b"epx: ") else UNKNOWN)
    rest, at = [], 1
    for letter in form:
        if letter == "I":
            rest.append(Instance(names, value[at], value[at + 1]))
            at += 1
        else:
            rest.append(READERS[letter](names, value[at]))
        at += 1
    return Row(kind, line, rest)


def pair_in(names, value):
    if type(value) is not list or len(value) != 2:
        raise BadAnswer(UNKNOWN)
    return Instance(names, *value)


def groups(rows, parts):
    """The rows of the parts of one instance each, which must follow each other, all of them."""
    for begin in range(0, len(rows), parts):
        group = rows[begin : begin + parts]
        own = group[0].rest[0]
        if len(group) != parts or any(
            (row.rest[0].at, row.rest[0].part) != (own.at, part) for part, row in enumerate(group)
        ):
            why = f"is of {own.name()}, of which {parts} parts do not follow each other"
            raise group[0].bad(why)
        yield group


def firsts(rows, parts):
    """The first row of each instance, of which all parts say the same."""
    for group in groups(rows, parts):
        if any(row.rest[1:] != group[0].rest[1:] for row in group):
            raise group[0].bad("says of one part what others do not")
        yield group[0]


def report(folder, names, rows):
    """A report, or one of the lists that begin as it does, of order and of levels."""
    first = rows[0]
    executed, waits, waiting, makes, components = first.rest
    done, ready, left, store = staged(rows[1:], STAGES)[:4]
    kind = ready[0].kind if ready else "reply"
    if kind != "reply" and done + store:
        raise (done + store)[0].bad()
    if (waits, makes) != ("waiting", "components") or components > executed:
        raise first.bad()
    if (executed, waiting) != (len(ready), len(left)):
        raise first.bad(f"counts {executed} and {waiting}, and {len(ready)} and {len(left)} follow:"
                        " the answer is not whole")  # fmt: skip
    for row in left:
        first_part(names, row, row.rest[1])
    first.rest[0], first.rest[2] = executed // names.parts, waiting // names.parts
    first.rest[1], first.rest[3] = '"waiting"', '"components"'
    store.sort(key=lambda row: row.rest[0].encode())
    for row in store:
        row.rest[0] = exact_json.quoted(row.rest[0])
    ready = READY[kind](folder, names, ready)
    return [first, *firsts(done, names.parts), *ready, *firsts(left, names.parts), *store]


def staged(rows, stages):
    """Rows by stage, each of which must be at its stage."""
    found, stage = [[] for _ in range(5)], 0
    for row in rows:
        if stages.get(row.kind, -1) < stage:
            raise row.bad()
        stage = stages[row.kind]
        if found[stage] and found[stage][0].kind != row.kind:
            raise row.bad()
        found[stage].append(row)
    return found


def replies(_, names, rows):
    """The reply of each instance, from those of its parts. Only what has one part can abort."""
    for group in groups(rows, names.parts):
        first, values = group[0], []
        _, word, place = first.rest
        if word == "abort":
            is_alone = all(row.rest[1:] == ["ok", []] for row in group[1:])
            if not is_alone or not is_whole(place, names.most):
                raise first.bad()
            first.rest[1] = '"abort"'
        else:
            for row in group:
                if row.rest[1] != "ok" or type(row.rest[2]) is not list:
                    raise row.bad()
                values += [checked(row, value_in, names, value) for value in row.rest[2]]
            first.rest[1:] = ['"ok"', f"[{','.join(values)}]"]
        yield first


def checked(row, call, *words):
    """What a call returns, with the line of the row where it is bad."""
    try:
        return call(*words)
    except BadAnswer as error:
        raise row.bad(str(error)) from error


def orders(_, names, rows):
    return firsts(rows, names.parts)


def levels(folder, names, rows):
    """The conflict levels in execution order. The answer has levels of parts, so where there are
    several they are counted anew, by the operations in the logs of the folder."""
    if names.parts == 1:
        yield from firsts(rows, 1)
        return
    commands, reached = commands_in(folder, names), {}
    for first, *_ in groups(rows, names.parts):
        own = first.rest[0]
        if own.at not in commands:
            raise first.bad(f"is of {own.name()}, which is in no log of {folder}")
        keys, level = commands[own.at].items(), 0
        for key, writes in keys:
            writer, reader = reached.get(key, (-1, -1))
            level = max(level, writer + 1, reader + 1 if writes else 0)
        for key, writes in keys:
            writer, reader = reached.get(key, (-1, -1))
            reached[key] = (level, reader) if writes else (writer, max(reader, level))
        first.rest[1] = level
        yield first


READY = {"reply": replies, "order": orders, "level": levels}


def commands_in(folder, names):
    """The keys of each instance of the logs of a folder, each with whether it is written."""
    found, commands = {}, {}
    for name in names.logs:
        for number, text in enumerate(read_lines(folder / name), 1):
            if is_blank(text):
                continue
            line, why = json_of(text)
            why = why or fault_of_members(line)
            if why:
                raise BadAnswer(f"{folder / name} line {number}: {why}")
            if is_committed(line):
                own = Instance(names, line["r"], line["i"])
                if found.setdefault((own.at, own.part), line["ops"]) != line["ops"]:
                    raise BadAnswer(f"the logs of {folder} disagree on {own.name()}")
                keys = commands.setdefault(own.at, {})
                for key, writes in accesses(line["ops"]).items():
                    keys[key] = keys.get(key, False) or writes
    return commands


def trace(_, names, rows):
    """What commands do with one key. The value before a command is that before its first part
    that uses the key, and the one after it that after the last."""
    found = []
    for row in rows:
        if row.kind not in ("write", "read"):
            raise row.bad()
        last = found[-1] if found else None
        if last is None or last.rest[0].at != row.rest[0].at:
            found.append(row)
            continue
        if last.rest[0].part >= row.rest[0].part:
            raise row.bad()
        last.rest[0].part = row.rest[0].part
        if row.kind == "write":
            before = last.rest[1]
            last.kind, last.rest[1:] = "write", [before, row.rest[2]]
    return found


def first_part(names, row, own):
    """Refuses an answer about a part that is not the first of its instance."""
    if own.part:
        first = f"{own.at[0]}.{own.at[1] * names.parts}"
        raise row.bad(f"is about a part of {own.name()}: ask for its first part, {first}")


def why(_, names, rows):
    """Why an instance is executed where it is, or is not; or the one that a list lacks."""
    first, parts = rows[0], names.parts
    if first.kind == "missing" and len(first.rest) != 1:
        raise first.bad()
    for own in first.rest[:2] if first.kind == "waiting" else first.rest[:1]:
        first_part(names, first, own)
    kind = {"ready": None, "waiting": "needs", "missing": "needed"}[first.kind]
    for row in rows[1:]:
        if row.kind != kind:
            raise row.bad()
    if kind == "needed":
        # a part is one step further than the part before it
        return [first, *(group[0] for group in groups(rows[1:], parts))]
    for row in rows[1:]:
        first_part(names, row, row.rest[0])
    return rows


def blockers(_, names, rows):
    """How many instances each missing one blocks. All parts of an instance reach the same, and the
    first alone has its dependencies."""
    *blocked, last = rows
    for row in blocked:
        if row.kind != "blocks":
            raise row.bad()
        first_part(names, row, row.rest[0])
    if last.kind != "several":
        raise last.bad("is no line `several`, with which the answer ends: it is not whole")
    for row, at in [*((row, 1) for row in blocked), (last, 0)]:
        if row.rest[at] % names.parts:
            raise row.bad(f"counts {row.rest[at]}, and each instance has {names.parts} parts")
        row.rest[at] //= names.parts
    return rows


def pairs(names, rows):
    """All pairs of an audit, those of one pair by their keys. Parts say nothing of the instances
    that they are of, since parts of others may be executed between them."""
    for row in rows:
        if row.kind != "uncovered" or len(row.rest) != 3:
            raise row.bad()
        if names.parts > 1:
            raise row.bad("is of parts of instances, and their pairs are not those of the parts")
    first_lines = {}
    for row in rows:
        first_lines.setdefault(tuple(map(str, row.rest[:2])), row.line)
    place = lambda row: (first_lines[tuple(map(str, row.rest[:2]))], row.rest[2].encode())
    rows = sorted(rows, key=place)
    for row in rows:
        row.rest[2] = exact_json.quoted(row.rest[2])
    return rows


def verdict(_, names, rows):
    """An answer of one line, or the pairs of an audit of all."""
    row = rows[0]
    if row.kind == "uncovered" and len(row.rest) == 3:
        return pairs(names, rows)
    if len(rows) > 1:
        raise rows[1].bad()
    if row.kind == "uncovered":
        own, other = row.rest
        last = (names.cut.get(own.at, 1) - 1) // names.most
        if own.part < last:
            raise row.bad(f"has {own.name()} and {other.name()}, which conflict and of which "
                          f"neither reaches the other; but another part of {own.name()} may have "
                          "a lower partner")  # fmt: skip
    if row.kind == "path":
        begin, *others = row.rest
        first_part(names, row, begin)
        first_part(names, row, others[-1])
        if any(it.part for it in others):
            raise row.bad(f"leads from {begin.name()} to itself through its own parts, so it says "
                          "nothing of other instances")  # fmt: skip
        row.rest = [f"[{it}]" for it in row.rest]
    return [row]


def comparison(_, names, rows):
    """What logs say against each other."""
    parts = names.parts
    logs, bad, differing, lacking, missing = staged(rows, COMPARED)
    for row in bad:
        if row.rest[2] not in FAULTS:
            raise row.bad()
        row.rest[2] = f'"{row.rest[2]}"'
    for row in [*bad, *(log for log in logs if log.rest[2])] if parts > 1 else []:
        raise row.bad("is of a log with bad lines, which contrib/texts does not write")
    for row in logs:
        if row.rest[1] % parts:
            raise row.bad(f"has {row.rest[1]} lines, and each instance has {parts}")
        row.rest[1] //= parts
    for row in lacking:
        if row.rest[2] % parts or (row.rest[3] + 1) % parts or row.rest[2] > row.rest[3]:
            raise row.bad(f"is of instances that have not all of their {parts} parts")
        row.rest[2:] = [number // parts for number in row.rest[2:]]
    for row in missing:
        if len(row.rest) != 2:
            raise row.bad()
        first_part(names, row, row.rest[0])
    return [*logs, *bad, *differences(parts, differing), *lacking, *missing]


def differences(parts, rows):
    """The instances that lines commit differently. Two lines agree where they do on each part, and
    an answer has the parts on which some differ."""
    found = []
    for row in rows:
        if found and found[-1][0].rest[0].at == row.rest[0].at:
            found[-1].append(row)
        else:
            found.append([row])
    for group in found:
        members, sides = set(), {}
        for row in group:
            members |= checked(row, members_in, row.rest[1])
            for side, places in enumerate(checked(row, places_in, row.rest[2])):
                for log, line in places:
                    sides.setdefault((log, (line - 1) // parts + 1), []).append(side)
        lines = {}
        for place in sorted(sides):
            if len(sides[place]) != len(group):
                raise group[0].bad("has not the same lines for each part")
            lines.setdefault(tuple(sides[place]), []).append(f"[{place[0]},{place[1]}]")
        said = ",".join(f'"{member}"' for member in MEMBERS if member in members)
        texts = ",".join(f"[{','.join(places)}]" for places in lines.values())
        group[0].rest[1:] = [f"[{said}]", f"[{texts}]"]
        yield group[0]


def members_in(value):
    if type(value) is not list or not value or not all(it in MEMBERS for it in value):
        raise BadAnswer(UNKNOWN)
    return set(value)


def places_in(value):
    """The groups of places of a difference."""
    is_list = lambda it: type(it) is list and it
    if not is_list(value) or not all(map(is_list, value)):
        raise BadAnswer(UNKNOWN)
    for place in [place for group in value for place in group]:
        if not is_list(place) or len(place) != 2:
            raise BadAnswer(UNKNOWN)
        if not is_whole(place[0], 2**64) or not is_whole(place[1], 2**64, 1):
            raise BadAnswer(UNKNOWN)
    return value


# How an answer is turned back, by the first word of its first line.
ANSWERS = {"executed": report, "log": comparison, "write": trace, "read": trace}
ANSWERS |= {kind: why for kind in ("ready", "waiting", "missing")}
ANSWERS |= {"blocks": blockers, "several": blockers}
ANSWERS |= {kind: verdict for kind in VERDICTS}


def turn_back(folder, names, text, is_trace=False):
    """The text of an answer turned back, or `BadAnswer`. A trace alone may be empty, since an empty
    text may also be what a failed run leaves in a pipe."""
    if not text and not is_trace:
        raise BadAnswer("is empty, and no answer but a trace may be: say --trace where it is one")
    lines, rows = text.split(b"\n"), []
    if not lines[-1]:
        lines.pop()
    if text.startswith(pictures_back.BEGIN) and not is_trace:
        return pictures_back.turn_back(names, lines, BadAnswer)
    for number, line in enumerate(lines, 1):
        try:
            rows.append(read_row(names, line, number))
        except BadAnswer as error:
            raise BadAnswer(str(error), number) from error
    if is_trace:
        return text_of(trace(folder, names, rows))
    if rows[0].kind not in ANSWERS:
        raise rows[0].bad()
    return text_of(ANSWERS[rows[0].kind](folder, names, rows))


def text_of(rows):
    return "".join([f"{row}\n" for row in rows])
