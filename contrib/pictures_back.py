"""Turns pictures of renamed logs back. A module of contrib/texts, and no tool itself.

The parts of an instance are boxes of one component, so an instance of several parts has a frame
even where it is alone in its component.
"""

import re

BEGIN = b"digraph dependencies {\n"
HEAD = ["digraph dependencies {", "  node [shape=box];"]
NAME = r'"(\d+)\.(\d+)"'
BOX = rf"{NAME} (\[label=\"\d+\.\d+\\n(depth \d+, seq \d+)\"(, style=dashed)?\];)"
FORMS = {
    "alone": rf"  {BOX}",
    "framed": rf"  subgraph \"cluster (\d+)\.(\d+)\" \{{ {BOX} \}}",
    "missing": rf"  {NAME} \[style=dotted\];",
    "arrow": rf"  {NAME} -> {NAME};",
}
FORMS = {kind: re.compile(form) for kind, form in FORMS.items()}


def turn_back(names, lines, bad):
    """The text of a picture turned back. Raises `bad` where it is none."""
    texts, parts = [line.decode(errors="replace") for line in lines], names.parts
    if texts[:2] != HEAD or texts[-1] != "}":
        raise bad("is no whole picture", 1)
    found = [(number, *read(text, number, bad)) for number, text in enumerate(texts[2:-1], 3)]
    if parts == 1:
        return "\n".join(texts) + "\n"
    name = lambda replica, number: f"{replica}.{int(number) // parts}"
    is_first = lambda number: int(number) % parts == 0
    members, turned = {}, []
    for _, kind, it in found:
        if kind == "framed" and is_first(it[3]):
            members[name(*it[:2])] = members.get(name(*it[:2]), 0) + 1
    for number, kind, it in found:
        if kind == "framed" and is_first(it[3]):
            leader, own, dashed = name(*it[:2]), name(*it[2:4]), it[6] or ""
            box = f'"{own}" [label="{own}\\n{it[5]}"{dashed}];'
            box = f'subgraph "cluster {leader}" {{ {box} }}' if members[leader] > 1 else box
            turned.append(f"  {box}")
        elif kind == "missing" and is_first(it[1]):
            turned.append(f'  "{name(*it)}" [style=dotted];')
        elif kind == "arrow" and name(*it[:2]) != name(*it[2:]):
            turned.append(f'  "{name(*it[:2])}" -> "{name(*it[2:])}";')
        elif kind in ("alone", "missing"):
            raise bad(f"is of a box that has not all of its {parts} parts", number)
    return "\n".join([*HEAD, *turned, "}"]) + "\n"


def read(text, number, bad):
    """Which line of a picture one is, and what it names."""
    for kind, form in FORMS.items():
        found = form.fullmatch(text)
        if found:
            return kind, found.groups()
    raise bad("is no line of a picture", number)
