"""Draws the pictures of docs/ that show a page of examples/replicas, by a headless Chromium.

    tools/docs pictures docs        writes docs/page-light.png and docs/page-dark.png

The exit status is 1 where no Chromium is installed, and 2 where there is no program.
"""

import os
import pathlib
import tempfile

from browser import find_browser
from command_line import TOP, Words, built, stop
from page_shown import Shown
from page_test import Case

SIZE = 1530, 1100
# An instance with arrows both ways, and the store after its component.
SCENE = "goTo(4), focusBox(2), new Promise((done) => setTimeout(done, 200))"


def draw(program, folder):
    """Writes a picture in light colours and one in dark ones."""
    folder = folder.absolute()
    # so that the page has the paths that a reader sees
    os.chdir(TOP)
    name = find_browser()
    if not name:
        stop("no Chromium is installed", 1)
    with tempfile.TemporaryDirectory(prefix="epx-page-") as room, Shown(name) as shown:
        logs = sorted(pathlib.Path().glob("examples/replicas/*.jsonl"))
        case = Case(program, pathlib.Path(room), logs)
        for scheme in ("light", "dark"):
            shown.prefer(scheme)
            shown.open(case.path)
            shown.resize(*SIZE)
            shown.value(SCENE)
            path = folder / f"page-{scheme}.png"
            path.write_bytes(shown.screenshot())
            print(f"tools/docs pictures: {path}, {path.stat().st_size:,} bytes")


def main():
    words = Words(__doc__)
    words.add_program()
    words.add_argument("folder", type=pathlib.Path, metavar="FOLDER")
    given = words.parse_args()
    draw(built(given.program), given.folder)
    return 0
