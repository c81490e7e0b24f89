"""Logs as the tools read and write them. A module, and no tool itself."""

import json
import math
import os
import pathlib
import re

from command_line import stop

# The most dependencies, the most operations and the longest key of a line that epx reads.
MOST_DEPS, MOST_OPS, MOST_KEY_BYTES = 256, 64, 64
SURROGATE = re.compile(r"[\ud800-\udfff]")
COMMITTED = ("committed", "executed")
STATUSES = (*COMMITTED, "accepted", "pre-accepted")
# What follows the name of each operation: keys, values, and values that may be null.
OPERATIONS = {
    "get": ("key",),
    "put": ("key", "value"),
    "del": ("key",),
    "add": ("key", "value"),
    "is": ("key", "value or null"),
    "floor": ("key", "value"),
    "copy": ("key", "key"),
}


class Bad(Exception):
    """Why a line is bad."""


def is_committed(line):
    return line.get("status", "committed") in COMMITTED


def accesses(ops):
    """The keys of a command, each with whether it is written."""
    found = {}
    for name, key, *rest in ops:
        found[key] = found.get(key, False) or name in ("put", "del", "add")
        if name == "copy":
            found[rest[0]] = True
    return found


def is_whole(value, bound, least=0):
    return type(value) is int and least <= value < bound


def is_text(value):
    """Whether a value is a text that UTF-8 has."""
    return type(value) is str and (value.isascii() or not SURROGATE.search(value))


def is_pair(value):
    """Whether a value names an instance."""
    is_long = type(value) is list and len(value) == 2
    return is_long and is_whole(value[0], 2**8) and is_whole(value[1], 2**64)


def kinds_of(operation):
    """What follows the name of an operation, or None where a value is no operation."""
    if type(operation) is not list or not operation or type(operation[0]) is not str:
        return None
    kinds = OPERATIONS.get(operation[0])
    return kinds if kinds and len(kinds) == len(operation) - 1 else None


def fault_of_members(line):
    """What is wrong with a line, but for its dependencies and its operations, or None."""
    if type(line) is not dict:
        return "no JSON object"
    if line.get("status", "committed") not in STATUSES:
        return f"status is none of {', '.join(STATUSES)}"
    members = ("r", "i", "seq", "deps", "ops") if is_committed(line) else ("r", "i", "seq")
    for member in members:
        if member not in line:
            return f"{member} is missing"
    for member, bound in ("r", 2**8), ("i", 2**64), ("seq", 2**64):
        if not is_whole(line[member], bound):
            return f"{member} is no whole number below {bound}"
    return None


def refuse_word(word):
    raise ValueError(f"{word} is no JSON")


def fraction(word):
    """A number with a fraction, which is no JSON to epx where it is too large."""
    value = float(word)
    return value if math.isfinite(value) else refuse_word(word)


def whole_number(word):
    """A number without a fraction. `-0` is none to epx, and may not become 0."""
    return int(word) if word != "-0" else -0.0


DECODER = json.JSONDecoder(parse_constant=refuse_word, parse_float=fraction)
# For lines that may have such a number, since it costs much time.
SLOW_DECODER = json.JSONDecoder(
    parse_constant=refuse_word, parse_float=fraction, parse_int=whole_number
)


def json_of(text, decoder=None):
    """The value of a line of JSON, and why it is none. A decoder may read numbers otherwise."""
    try:
        decoder = decoder or (SLOW_DECODER if b"-0" in text else DECODER)
        return decoder.decode(text.decode()), None
    except UnicodeDecodeError as error:
        return None, f"no UTF-8 at byte {error.start + 1}"
    except (ValueError, RecursionError) as error:
        return None, f"no JSON: {error}"


def is_blank(text):
    return not text.strip(b" \t\r")


def refuse_line(path, number, why):
    stop(f"{path} line {number}: {why}", 1)


def read_lines(path):
    """The bytes of the lines of a file."""
    try:
        return path.read_bytes().split(b"\n")
    except OSError as error:
        stop(f"{path} can not be read: {error.strerror}", 1)


def read_log(path, line_of, decoder=None):
    """What a function makes of the value of each line, None for each that is blank. It raises
    `Bad` where it refuses a value."""
    lines = []
    for number, text in enumerate(read_lines(path), 1):
        line = None
        if not is_blank(text):
            value, why = json_of(text, decoder)
            try:
                line = line_of(value) if not why else None
            except Bad as error:
                why = str(error)
            if why:
                refuse_line(path, number, why)
        lines.append(line)
    return lines


def write(texts):
    """Writes files, each whole. Where one cannot be written none is."""
    made = {path: path.with_name(f".{path.name}.{os.getpid()}") for path in texts}
    try:
        for path, text in texts.items():
            path.parent.mkdir(parents=True, exist_ok=True)
            made[path].write_text(text, encoding="utf-8")
        for path, new in made.items():
            new.replace(path)
    except OSError as error:
        stop(f"{error.filename} can not be written: {error.strerror}", 1)
    finally:
        for new in filter(pathlib.Path.exists, made.values()):
            new.unlink()


def write_texts(folder, texts):
    """Writes logs of these texts into a new folder, and returns their paths."""
    folder.mkdir(parents=True)
    paths = []
    for number, text in enumerate(texts):
        paths.append(folder / f"{number}.jsonl")
        paths[-1].write_text(text, encoding="utf-8")
    return paths


def refuse_places(logs, folder):
    """Refuses words by which a log would be lost."""
    if folder is None:
        stop("--out FOLDER is missing")
    if not logs:
        stop("no LOG is named")
    if folder.exists() and not folder.is_dir():
        stop(f"{folder} is no folder")
    named = {}
    for log in logs:
        if folder.resolve() in (log.parent.resolve(), log.resolve().parent):
            stop(f"{folder} is the folder of {log}, which would be overwritten")
        if log.name in named:
            stop(f"{named[log.name]} and {log} have one name, and would be one file of {folder}")
        named[log.name] = log
