"""Each name in code style on a page is in the tree."""

import re

from tree import files, pages

PLACES = ("crates/**/*", "tools/**/*", "contrib/**/*", "examples/**/*", "epx")
# Names that a page may use although no file has them: of the toolchain, of shells and of Accord,
# and a place for a name.
FOREIGN = {"start_lib", "assert_eq", "UseNumber", "BigInt", "XDG_DATA_DIRS", "WHAT_IT_DOES"}
FOREIGN |= {"executeAt"}

FLAWS = [("docs/MODEL.md", "`NothingOf" + "This`")]


def words_of_the_tree(top):
    """All identifiers of sources, scripts, data and file names."""
    words = set()
    for path in files(top, PLACES):
        if "out" not in path.parts and path.suffix != ".md":
            words.update(re.findall(r"\w+", path.read_text(errors="replace")))
            words.update(re.findall(r"\w+", str(path.relative_to(top))))
    return words


def find(top):
    """Names in code style with a capital inside or an underscore, which no file of the tree
    has."""
    known = words_of_the_tree(top) | FOREIGN
    for page, lines in pages(top):
        for number, line in enumerate(lines, 1):
            for code in re.findall(r"`([^`]+)`", line):
                for name in re.findall(r"[A-Za-z]\w*", code):
                    is_name = "_" in name or re.search(r"[a-z][A-Z]", name)
                    if is_name and name not in known:
                        yield page, number, f"no file has the name {name}"
