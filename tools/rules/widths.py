"""No line of a page, a source or a script is past column 100, tables aside."""

from tree import pages, scripts, sources

WIDTH = 100
FLAWS = [
    ("docs/CLI.md", "x" * (WIDTH + 1)),
    ("crates/epx_components/src/rank.rt", "// x" + " x" * (WIDTH // 2)),
    ("contrib/expand", "# x" + " x" * (WIDTH // 2)),
]


def find(top):
    for page, lines in pages(top):
        for number, line in enumerate(lines, 1):
            if len(line) > WIDTH and not line.startswith("|"):
                yield page, number, f"{len(line)} columns"
    for path, lines in [*sources(top), *scripts(top)]:
        for number, line in enumerate(lines, 1):
            # a long word, as a path, a text or the name of a goal, cannot be broken; an edit is a
            # line
            can_break = path.suffix != ".edit" and max(map(len, line.split()), default=0) < 40
            if len(line) > WIDTH and can_break:
                yield path, number, f"{len(line)} columns"
