"""JSON whose numbers keep their digits, and what makes two of its values equal. A module, and no
tool itself.

Equal are numbers of one amount, as 1, 1.0 and 10e-1, texts of the same characters, arrays of equal
elements, and objects of equal members in any order. A number and a text are never equal.
"""

import json
import math
import re

from logs import is_text, refuse_word

quoted = json.encoder.encode_basestring
# The longest text of a number that is read as a whole number: all of 64 bits have one as long.
PLAIN = 20
# How deep a value may be nested, as epx has it of a line.
MOST_DEPTH = 127


class Number:
    """A number that is not read as a whole one: its text, and one that equal numbers share."""

    __slots__ = ("text", "name")

    def __init__(self, text):
        if math.isinf(float(text)):
            raise ValueError(f"the number {text[:12]} is beyond floats of 64 bits")
        self.text, self.name = text, name_of_number(text)


def name_of_number(text):
    """The text that all numbers of one amount share."""
    form = r"(-?)(\d+)(?:\.(\d+))?(?:[eE]([+-]?\d+))?"
    sign, whole, fraction, power = re.fullmatch(form, text).groups("")
    digits = (whole + fraction).lstrip("0")
    kept = digits.rstrip("0")
    if not kept:
        return "0"
    power = int(power or 0) - len(fraction) + len(digits) - len(kept)
    if power >= 0 and len(sign) + len(kept) + power <= PLAIN:
        return sign + kept + "0" * power
    return f"{sign}{kept}e{power}"


def whole_or_number(text):
    return int(text) if len(text) <= PLAIN and text != "-0" else Number(text)


DECODER = json.JSONDecoder(
    parse_constant=refuse_word, parse_int=whole_or_number, parse_float=Number
)


def text_of(value, is_name=False, depth=MOST_DEPTH):
    """The JSON text of a value, with its numbers as they were written. As a name it is the text
    that all equal values share."""
    kind = type(value)
    if kind is str:
        if not is_text(value):
            raise ValueError("a text has half of a surrogate pair")
        return quoted(value)
    if kind is int:
        return str(value)
    if kind is Number:
        return value.name if is_name else value.text
    if value is None or kind is bool:
        return {True: "true", False: "false", None: "null"}[value]
    if not depth:
        raise ValueError(f"it is nested over {MOST_DEPTH}")
    if kind in (list, tuple):
        return f"[{','.join([text_of(it, is_name, depth - 1) for it in value])}]"
    members = sorted(value.items()) if is_name else value.items()
    texts = [f"{text_of(name)}:{text_of(it, is_name, depth - 1)}" for name, it in members]
    return f"{{{','.join(texts)}}}"


def text_of_ops(ops, is_name=False):
    """The JSON text of operations, of which each value may be nested so deep."""
    return text_of(ops, is_name, MOST_DEPTH + 2)


def has_text(value):
    """Whether a value can be written."""
    try:
        text_of(value)
    except ValueError:
        return False
    return True
