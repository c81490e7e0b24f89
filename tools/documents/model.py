"""Writes the words of the tables of docs/MODEL.md from the comments of the definitions.

    tools/docs model            writes docs/MODEL.md anew
    tools/docs model --print    prints it

A row of a table below a heading that names crates/CRATE/specs has one definition: `File`: `name`,
or `name` alone where the file is that of the row before. Its second cell is the comment right above
the definition; that of a file alone is the comment at its head. The other cells are written by
hand. `tools/check` compares the page with what this script makes of it.
"""

import re
import sys

from command_line import TOP, Words

DECLARED = re.compile(r"^(?:abbrev pub|unfoldable pub|pub record|pub data) (\w+)")
HEAD = "| Definition | In plain words |"


def comments_of(path):
    """The comment of each definition of a file, by name, and that at its head by None."""
    found, comment = {}, []
    for line in path.read_text().split("\n"):
        if line.startswith("--"):
            comment.append(line[2:].strip())
            continue
        if None not in found:
            found[None] = " ".join(comment).rstrip(".")
        elif name := DECLARED.match(line):
            found[name[1]] = " ".join(comment)
        comment = []
    return found


def files_of(top, crate):
    """The comments of the files of specs/ of a crate, by the names of the files."""
    paths = sorted((top / "crates" / crate / "specs").rglob("*.antt"))
    return {path.stem: comments_of(path) for path in paths if path.stem != "Lib"}


class Page:
    """The page, whose lines are gone through in turn."""

    def __init__(self, top):
        self.top, self.files, self.file, self.is_table = top, {}, None, False

    def enter(self, heading):
        """A heading says which crates the rows below it are of."""
        crates = re.findall(r"crates/(\w+)/specs", heading)
        self.files = {}
        for crate in crates:
            self.files |= files_of(self.top, crate)

    def row(self, line):
        """A row with the comment of its definition."""
        cells = line.split(" | ")
        names = re.findall(r"`(\w+)`", cells[0])
        if names[0] in self.files:
            self.file = names[0]
        comments = self.files[self.file]
        if names[-1] in comments or names == [self.file]:
            words = comments.get(names[-1], comments[None])
        else:
            words = f"{self.file} has no such definition"
        cells[1] = words.replace("|", "\\|")
        return " | ".join(cells)

    def line(self, line):
        """A line of the page as it has to be."""
        if re.match("###? ", line):
            self.enter(line)
        if not line.startswith("|"):
            self.is_table = False
        elif line.startswith(HEAD):
            self.is_table = bool(self.files)
        return self.row(line) if self.is_table and line.startswith("| `") else line


def page_of(top):
    """The text of the page, with the words of the definitions."""
    page = Page(top)
    return "\n".join(map(page.line, (top / "docs/MODEL.md").read_text().split("\n")))


def main():
    words = Words(__doc__)
    words.add_argument("--print", action="store_true")
    given = words.parse_args()
    text = page_of(TOP)
    if given.print:
        sys.stdout.write(text)
        return 0
    (TOP / "docs/MODEL.md").write_text(text)
    print("tools/docs model: wrote docs/MODEL.md")
    return 0
