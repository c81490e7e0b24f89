"""Draws the times of docs/PERFORMANCE.md as bars, in SVG.

    tools/docs chart > docs/times.svg

The rows are those of the first table of the page. `tools/check`
compares the picture with the page.
"""

import re
import sys

from command_line import TOP, Words

ROW = re.compile(r"\| ([\w-]+) \| [^|]+ \| [\d.]+ \| ([\d.]+) \| ([\d.]+) \|")
COLOURS = {"1": "#7a9cc6", "4": "#2f5d8a"}
LEFT, HEIGHT, GAP, LONGEST = 100, 12, 8, 560


def rows(page):
    """The rows of the page: for each shape of logs, the seconds by the number of workers."""
    found = ROW.findall(page)
    return {shape: {"1": float(one), "4": float(four)} for shape, one, four in found}


def text(x, y, words, anchor="start"):
    return f'<text x="{x}" y="{y}" text-anchor="{anchor}">{words}</text>'


def bars(times):
    """The bars, and the height of the picture."""
    most = max(seconds for row in times.values() for seconds in row.values())
    y, parts = GAP, []
    for shape, row in times.items():
        parts.append(text(LEFT - 8, y + HEIGHT + 4, shape, "end"))
        for workers, seconds in row.items():
            width = round(LONGEST * seconds / most, 1)
            place = f'x="{LEFT}" y="{y}" width="{width}" height="{HEIGHT}"'
            parts.append(f'<rect {place} fill="{COLOURS[workers]}"/>')
            parts.append(text(LEFT + width + 5, y + HEIGHT - 2, f"{seconds:.3f} s"))
            y += HEIGHT + 1
        y += GAP
    return parts, y


def picture(page):
    parts, y = bars(rows(page))
    for place, (workers, colour) in enumerate(COLOURS.items()):
        x = LEFT + 150 * place
        parts.append(f'<rect x="{x}" y="{y}" width="{HEIGHT}" height="{HEIGHT}" fill="{colour}"/>')
        name = "worker" if workers == "1" else "workers"
        parts.append(text(x + HEIGHT + 5, y + HEIGHT - 2, f"{workers} {name}"))
    size = f'width="{LEFT + LONGEST + 70}" height="{y + HEIGHT + GAP}"'
    style = 'font-family="sans-serif" font-size="11"'
    head = f'<svg xmlns="http://www.w3.org/2000/svg" {size} {style}>'
    return "\n".join([head, *parts, "</svg>"]) + "\n"


def main():
    Words(__doc__).parse_args()
    sys.stdout.write(picture((TOP / "docs/PERFORMANCE.md").read_text()))
    return 0

