"""Numbers in place of values, short keys in place of long ones, and several instances in place of
one. A module of contrib/texts, and no tool itself."""

import json

import exact_json
from command_line import stop
from logs import MOST_KEY_BYTES, MOST_OPS, is_whole, json_of, read_lines

FILE = "names.json"
# How the key begins that is written for a long one. A key of the logs that begins so gets one too.
PREFIX = "long:"


class Renaming:
    """What was written for each value and each long key, and in how many parts each instance."""

    def __init__(self, parts=1, most=MOST_OPS):
        self.parts, self.most = parts, most
        self.values, self.numbers = [], {}
        self.long, self.shorts = [], {}
        # The number of operations of each instance that has more than a part may have.
        self.cut, self.logs = {}, []

    def number_of(self, value):
        """The number that is written for a value, the same for all equal ones."""
        name = exact_json.text_of(value, True)
        number = self.numbers.get(name)
        if number is None:
            number = self.numbers[name] = len(self.values)
            self.values.append(exact_json.text_of(value))
        return number

    def key_of(self, key):
        """The JSON text of the key that is written for a key. No two keys have one text."""
        text = self.shorts.get(key)
        if text is None:
            text = exact_json.quoted(key)
            if len(key.encode()) > MOST_KEY_BYTES or key.startswith(PREFIX):
                text = exact_json.quoted(f"{PREFIX}{len(self.long)}")
                self.long.append(key)
            self.shorts[key] = text
        return text

    def key_at(self, short):
        """The key for which one is written, or None where none is."""
        if not short.startswith(PREFIX):
            return short
        digits = short.removeprefix(PREFIX)
        is_known = digits.isascii() and digits.isdigit() and len(digits) <= len(str(len(self.long)))
        is_known = is_known and int(digits) < len(self.long) and str(int(digits)) == digits
        return self.long[int(digits)] if is_known else None

    def text(self):
        """The text of its file: JSON, with a line for each key and each value."""
        keys = [f"{exact_json.quoted(PREFIX + str(at))}:{exact_json.quoted(key)}"
                for at, key in enumerate(self.long)]  # fmt: skip
        cut = [f"[{r},{i},{count}]" for (r, i), count in sorted(self.cut.items())]
        return (f'{{"parts":{self.parts},"operations":{self.most},"logs":{json.dumps(self.logs)},\n'
                f'"cut":[{listed(cut)}],\n"keys":{{{listed(keys)}}},\n'
                f'"values":[{listed(self.values)}]}}\n')  # fmt: skip


def listed(texts):
    return "\n" + ",\n".join(texts) if texts else ""


def is_renaming(found):
    """Whether a value is that of a file of names."""
    kinds = {"parts": int, "operations": int, "logs": list, "cut": list, "keys": dict}
    kinds |= {"values": list}
    if type(found) is not dict or any(type(found.get(it)) is not kinds[it] for it in kinds):
        return False
    keys = [f"{PREFIX}{at}" for at in range(len(found["keys"]))]
    is_right = [*found["keys"]] == keys and all(type(it) is str for it in found["keys"].values())
    is_right = is_right and all(type(it) is str for it in found["logs"])
    rows = all(type(it) is list and len(it) == 3 for it in found["cut"])
    rows = rows and all(is_whole(it, 2**64) for row in found["cut"] for it in row)
    return is_right and rows and found["parts"] > 0 and found["operations"] > 0


def load(folder):
    """The renaming of a folder that contrib/texts wrote."""
    path = folder / FILE
    found, why = json_of(b"\n".join(read_lines(path)), exact_json.DECODER)
    if why or not is_renaming(found):
        stop(f"{path} is not as contrib/texts writes it{': ' + why if why else ''}", 1)
    names = Renaming(found["parts"], found["operations"])
    for value in found["values"]:
        names.number_of(value)
    for key in found["keys"].values():
        names.key_of(key)
    if (len(names.values), len(names.long)) != (len(found["values"]), len(found["keys"])):
        stop(f"{path} is not as contrib/texts writes it: it has equal values or keys", 1)
    names.cut = {(r, i): count for r, i, count in found["cut"]}
    names.logs = found["logs"]
    return names
