"""Drawings have the boxes, the labels and the arrows of their text."""

from drawings import arrows_of, boxes_of, drawn_parts

FLAWS = [
    ("docs/proof.svg", '<g id="x" class="node"><title>run</title><text>it</text></g>'),
    ("docs/pipeline.svg", '<g id="x" class="edge"><title>a&#45;&gt;b</title></g>'),
]


def find(top):
    """Drawings whose boxes, labels or arrows are not those of their text."""
    for path in sorted(top.glob("docs/*.dot")):
        text, picture = path.read_text(), path.with_suffix(".svg").read_text()
        if drawn_parts(picture) != (boxes_of(text), arrows_of(text)):
            way = f"dot -Tsvg {path.name} | fold -s -w 100 | sed 's/ *$//' > {path.stem}.svg"
            yield path, 1, f"draw it again: {way}"
