"""Which functions of the crates call which, read from the sources by name. A module, and no tool
itself.

What it cannot see: the type of a value. So `value.name(..)`, and `T::name(..)` of a type parameter,
count as calls of each method `name` whose type or trait the file names, and of no other; of a
trait, as one of each of its impls. The body of a closure is a part of the function that it is
written in. Where a function is passed on without brackets, as in `map(name)`, and where the one
that it is passed to calls it, nothing is seen. Nor are calls that macros, operators, `for`, `?` and
the end of a value make.
"""

import collections
import re

# What is left out of a source: comments, and what is in quotes.
REMARKS = r'//[^\n]*|r(#*)".*?"\1|"(?:\\.|[^"\\])*"' + r"|'(?:\\[^']+|[^\\'\n])'"
# What begins a clause, or a ghost item.
CLAUSE = re.compile(r"\b(?:(?:requires|ensures)(?: \w+)?|ghost \w+(?::| =)) \{")
# What begins an impl, with its trait, if it is of one, and its type; or what begins a trait.
OF = r"(?:(?P<of>[\w:]+)(?:<[^{]*?>)? for )?"
BLOCK = rf"^(?:pub )?(?:impl(?:<[^{{]*?>)? {OF}|trait )&?(?P<type>\w+)"
# What a function has between its name and its body, or the semicolon in its place.
HEAD = re.compile(r"(?:[^\[{;]|\[(?:[^\[\]]|\[[^\[\]]*\])*\])*")
# A call: a name, or a path of names, before a bracket.
PATH = r"[a-zA-Z_]\w*(?:::[a-zA-Z_]\w*)*"
CALLS = re.compile(rf"(?P<dot>\.)?(?<!fn )\b(?P<path>{PATH})(?:::<[^(]*?>)?\(")

Function = collections.namedtuple("Function", "place type name")


def end_of(text, start):
    """The place behind the brace that closes the one at `start`."""
    depth = 0
    for found in re.compile(r"[{}]").finditer(text, start):
        depth += 1 if found[0] == "{" else -1
        if depth == 0:
            return found.end()
    return len(text)


def code_of(text):
    """A source without comments, quotes, clauses and ghost items."""
    text = re.sub(REMARKS, '""', text, flags=re.S)
    text = re.sub(r"^\s*ghost use [^;]*;", "", text, flags=re.M)
    parts, at = [], 0
    while found := CLAUSE.search(text, at):
        parts.append(text[at : found.start()])
        at = end_of(text, found.end() - 1)
    return "".join([*parts, text[at:]])


def leaves(tree):
    """The paths of a `use` line, each with the name that it brings in."""
    head, brace, inner = tree.partition("{")
    if not brace:
        path, _, name = tree.partition(" as ")
        path = path.removesuffix("::self").strip().split("::")
        return [(name.strip() or path[-1], tuple(path))]
    parts = re.findall(r"[^,{\s][^,{]*(?:\{[^}]*\})?", inner.strip()[:-1])
    return [leaf for part in parts for leaf in leaves(head + part)]


class Calls:
    """The functions of all crates, and the calls of their bodies."""

    def __init__(self, top):
        self.codes, self.imports, self.types, self.kinds = {}, {}, {}, {}
        self.bodies, self.functions = collections.defaultdict(str), {}
        self.methods = collections.defaultdict(set)
        self.crates = {path.name for path in top.glob("crates/*")}
        for path in sorted(top.glob("crates/*/src/**/*.rt")):
            crate, _, *parts = path.relative_to(top / "crates").with_suffix("").parts
            place = (crate, *([] if parts in (["lib"], ["main"]) else parts))
            self.codes[place] = code_of(path.read_text())
        for place, code in self.codes.items():
            self.imports[place] = dict(self.imports_of(place, code))
            self.types[place] = set(re.findall(r"\b(?:struct|enum|trait) (\w+)", code))
        for place, code in self.codes.items():
            words = set(re.findall(r"\w+", code))
            self.kinds[place] = {word: self.type_of(place, word) for word in words}
        for place, code in self.codes.items():
            self.add_functions(place, code)

    def imports_of(self, place, code):
        """The names that the `use` lines of a source bring in, each with its path from a crate."""
        for line in re.findall(r"^(?:pub(?:\(crate\))? )?use ([^;]*);", code, re.M):
            for name, path in leaves(line):
                yield name, self.whole(place, path)

    def whole(self, place, path):
        """A path of a source, from its crate on."""
        if path[0] == "crate":
            return place[0], *path[1:]
        if path[0] == "super":
            return *place[:-1], *path[1:]
        return path if path[0] in self.crates else (*place, *path)

    def add_functions(self, place, code):
        """Adds the functions of a source: those of its types and traits, and the others."""
        blocks = [
            (found.start(), end_of(code, code.index("{", found.end())), found)
            for found in re.finditer(BLOCK, code, re.M)
        ]
        for found in re.finditer(r"\bfn (\w+)", code):
            inside = [block for start, end, block in blocks if start < found.start() < end]
            kinds = [inside[0]["type"], inside[0]["of"]] if inside else [None]
            one = Function(place, kinds[0], found[1])
            head = HEAD.match(code, found.end())
            ends = end_of(code, head.end()) if code[head.end()] == "{" else head.end()
            self.bodies[one] += code[head.end() : ends]
            if not inside:
                self.functions[place, one.name] = one
            for kind in filter(None, kinds):
                self.methods[self.type_of(place, kind.split("::")[-1]), one.name].add(one)

    def origin(self, place, path, has):
        """Where the thing that a path of a source names is defined, and its name there."""
        first = self.imports[place].get(path[0])
        path = (*first, *path[1:]) if first else self.whole(place, tuple(path))
        while not has(path[:-1], path[-1]):
            path = self.imports.get(path[:-1], {}).get(path[-1])
            if not path:
                return None
        return path[:-1], path[-1]

    def function_of(self, place, path):
        """The function that a path of a source names, if one of the crates has it."""
        found = self.origin(place, path, lambda *key: key in self.functions)
        return self.functions.get(found)

    def type_of(self, place, name):
        """The type or trait that a name of a source is, if one of the crates has it."""
        return self.origin(place, (name,), lambda at, one: one in self.types.get(at, ()))

    def calls_of(self, one):
        """The functions that the body of a function calls."""
        found, kinds = set(), self.kinds[one.place]
        for call in CALLS.finditer(self.bodies[one]):
            path = call["path"].split("::")
            if call["dot"] or len(path) == 2 and len(path[0]) == 1:
                named = [kind for kind in kinds.values() if kind]
            elif len(path) > 1:
                named = [kinds.get(one.type if path[-2] == "Self" else path[-2])]
            else:
                named = []
            for kind in filter(None, named):
                found |= self.methods.get((kind, path[-1]), set())
            if not call["dot"] and (called := self.function_of(one.place, path)):
                found.add(called)
        return found
