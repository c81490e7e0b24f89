"""The boxes and arrows of the drawings of docs/, and those that they must have. A module, and no
tool itself.

Both drawings of the tree follow one rule: an arrow leads from a box to another that it goes to in
the tree, directly or through what is not drawn, unless a longer path of arrows does. So the boxes
alone decide which arrows there are."""

import html
import re


def boxes_of(drawing):
    """The boxes of a drawing's text, each with its label."""
    return dict(re.findall(r'^ *(\w+) \[label="([^"]*)"\];$', drawing, re.M))


def arrows_of(drawing):
    """The arrows of a drawing's text. Each of its ends is a box, or several in braces."""
    ends, found = r"(?:\w+|\{[\w ]+\})", set()
    for way in re.findall(rf"{ends}(?: -> {ends})+", drawing):
        steps = [re.findall(r"\w+", end) for end in way.split(" -> ")]
        for before, after in zip(steps, steps[1:]):
            found |= {(start, end) for start in before for end in after}
    return found


def drawn_parts(picture):
    """The boxes of an SVG, whose lines may break at any space, with their labels; its arrows."""
    boxes, arrows = {}, set()
    form = r'<g id="\w+" class="(node|edge)">\s*<title>([^<]*)</title>(.*?)</g>'
    for kind, title, rest in re.findall(form, picture, re.S):
        if kind == "edge":
            arrows.add(tuple(html.unescape(title).split("->")))
        else:
            lines = [" ".join(line.split()) for line in re.findall(r"<text[^>]*>([^<]*)", rest)]
            boxes[title] = html.unescape("\\n".join(lines))
    return boxes, arrows


def arrows_between(boxes, steps_of):
    """The arrows that a drawing of these boxes has, where the steps of each thing are known."""
    reached = {}
    for box in boxes:
        found, left = set(), [box]
        while left:
            steps = steps_of(left.pop()) - found
            found |= steps
            left += steps - boxes
        reached[box] = (found & boxes) - {box}
    beyond, before = reached, None
    while beyond != before:
        before = beyond
        beyond = {box: ends.union(*(before[end] for end in ends)) for box, ends in before.items()}
    return {
        (box, end)
        for box, ends in reached.items()
        for end in ends
        if not any(end in beyond[other] for other in ends - {end})
    }


def wrong_arrows(page, drawn, wanted):
    """The arrows that one of two sets has alone."""
    for start, end in sorted(drawn ^ wanted):
        what = "the tree has no" if (start, end) in drawn else "it lacks an"
        yield page, 1, f"{what} arrow from {start} to {end}"
