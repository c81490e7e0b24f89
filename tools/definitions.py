"""The definitions of the crates, and those that public contracts use. A module, and no tool
itself."""

import re


def definitions(top):
    """The definitions of each file of specs/, by crate and file."""
    form = r"^(?:abbrev pub|unfoldable pub|pub record|pub data) (\w+)"
    found = {}
    for path in sorted(top.glob("crates/*/specs/**/*.antt")):
        names = re.findall(form, path.read_text(), re.M)
        if path.stem not in ("Lib", "between", "inner"):
            found[path.relative_to(top).parts[1], path.stem] = set(names)
    return found


def public_clauses(text, exported):
    """The clauses of the public functions of a source, and what impls of traits for exported
    types say. How a type keeps its value is private."""
    for call in re.finditer(r"^\s*pub (?:const )?fn .*?^\s*\{", text, re.M | re.S):
        yield "\n".join(re.findall(r"^\s+(?:requires|ensures) .*", call[0], re.M | re.S))
    types = "|".join(sorted(exported)) or "none"
    block = rf"^(?:pub trait|impl\b[^{{;]*\bfor (?:{types})\b).*?^\}}"
    for found in re.finditer(block, text, re.M | re.S):
        private = r"^    ghost (?:use .*?;|(?:view|invariant|coded) =.*?)$(?=\n    \w|\n\n|\n\})"
        yield re.sub(private, "", found[0], flags=re.M | re.S)


def used_definitions(top):
    """Each definition that a public clause uses: the crate and the file that have it, its
    name."""
    known = definitions(top)
    for path in sorted(top.glob("crates/*/src/**/*.rt")):
        text, root = path.read_text(), path.parent / "lib.rt"
        uses = re.findall(r"^pub use [^;]*", root.read_text(), re.M) if root.exists() else []
        exported = set(re.findall(r"\w+", " ".join(uses)))
        clauses = public_clauses(text, exported)
        words = {word for clause in clauses for word in re.findall(r"\w+", clause)}
        uses = r"^\s*ghost use Rattle\.(\w+)\.specs\.(?:between\.|inner\.)?(\w+)\.\{([^}]*)\}"
        for crate, file, names in re.findall(uses, text, re.M):
            for name in words & set(re.findall(r"\w+", names)) & known.get((crate, file), set()):
                yield crate, file, name
