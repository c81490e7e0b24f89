"""What a line of a log means, word by word as docs/FORMAT.md says. A module, and no tool itself."""

import json
import pathlib

from command_line import stop
from fuzzing.model import CommittedMap, Instance

MAX_LINE = 65_536


class Bad(Exception):
    """Why a line is bad."""


def whole(value, bound, why):
    if type(value) is not int or not 0 <= value < bound:
        raise Bad(why)
    return value


def json_of(line):
    """The JSON value of a line. `-0` is no whole number, and `NaN` no JSON.

    It is read as Python reads it, which takes numbers as 1e999, nesting over 127 and halves of
    surrogate pairs too; random logs have none of these."""
    if len(line) > MAX_LINE:
        raise Bad("TooLong")
    try:
        return json.loads(
            line.decode(),
            parse_int=lambda text: -0.0 if text == "-0" else int(text),
            parse_constant=int,
        )
    except ValueError:
        raise Bad("NotJson") from None


def dependencies(value):
    if type(value) is not list or len(value) > 256:
        raise Bad("Deps")
    for pair in value:
        if type(pair) is not list or len(pair) != 2:
            raise Bad("Deps")
    return {(whole(r, 256, "Deps"), whole(i, 2**64, "Deps")) for r, i in value}


def is_key(value):
    return type(value) is str and 1 <= len(value.encode()) <= 64


def is_value(value):
    return type(value) is int and -(2**63) <= value < 2**63


def is_null_or_value(value):
    return value is None or is_value(value)


# What follows the name of an operation.
OPERATIONS = {
    "get": [is_key],
    "put": [is_key, is_value],
    "del": [is_key],
    "add": [is_key, is_value],
    "is": [is_key, is_null_or_value],
    "floor": [is_key, is_value],
    "copy": [is_key, is_key],
}


def is_operation(value):
    if type(value) is not list or not value or type(value[0]) is not str:
        return False
    tests = OPERATIONS.get(value[0], [])
    is_long_enough = len(tests) > 0 and len(value) == 1 + len(tests)
    return is_long_enough and all(test(part) for test, part in zip(tests, value[1:]))


def instance_of(line):
    """The instance that a line commits, or None; a bad line raises its reason."""
    if all(byte in b" \t\r" for byte in line):
        return None
    entry = json_of(line)
    if type(entry) is not dict:
        raise Bad("NotObject")
    x = whole(entry.get("r"), 256, "Replica"), whole(entry.get("i"), 2**64, "Number")
    seq = whole(entry.get("seq"), 2**64, "Seq")
    status = entry.get("status", "committed")
    if status in ("accepted", "pre-accepted"):
        return None
    if status not in ("committed", "executed"):
        raise Bad("Status")
    deps = dependencies(entry.get("deps")) - {x}
    ops = entry.get("ops")
    if type(ops) is not list or len(ops) > 64 or not all(is_operation(op) for op in ops):
        raise Bad("Ops")
    return Instance(x, seq, deps, ops)


def lines_of(text):
    """A log is cut at its line feeds, and nothing follows the last one."""
    lines = text.split(b"\n")
    return lines if lines[-1] else lines[:-1]


def read_files(paths):
    """The bytes of logs."""
    try:
        return [pathlib.Path(path).read_bytes() for path in paths]
    except OSError as error:
        stop(f"{error.filename} can not be read: {error.strerror}")


def read_logs(paths):
    """The map that logs commit."""
    instances = {}
    for path, text in zip(paths, read_files(paths)):
        for number, line in enumerate(lines_of(text), 1):
            try:
                one = instance_of(line)
            except Bad as why:
                stop(f"{path} line {number} is bad: {why}", 1)
            if one and instances.setdefault(one.id, one) != one:
                stop(f"{path} line {number} commits {one.id[0]}.{one.id[1]} differently", 1)
    return CommittedMap(instances.values())


# An entry is what random lines are made of: the JSON object of a line, whose dependencies are a set
# of Ids.


def name_of(entry):
    return entry["r"], entry["i"]


def committed(entries):
    """The map that the lines of entries commit."""
    return CommittedMap(
        Instance(name_of(it), it["seq"], {*it["deps"]} - {name_of(it)}, it["ops"]) for it in entries
    )


def text_of(entries):
    """A log of entries."""
    lines = [it | {"deps": sorted(map(list, it["deps"]))} for it in entries]
    return "".join(json.dumps(line) + "\n" for line in lines)
