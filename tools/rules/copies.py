"""The copies of examples that tests read are the same."""

FLAWS = [("examples/statuses.jsonl", "")]


def find(top):
    """Examples that the worked cases have in another form, or not at all, and those of one log that
    the stored run has in another form. Pages, drawings and scripts are no such examples."""
    shown = [path for path in (top / "examples").rglob("*") if path.is_file()]
    shown = [path for path in shown if path.suffix not in (".md", ".svg", ".py", ".pyc")]
    pairs = [(path, path.relative_to(top / "examples")) for path in shown]
    copies = [(path, top / "crates/epx_cases/data/examples" / name) for path, name in pairs]
    for name, copy in (("one.jsonl", "stdin"), ("one.report", "stdout")):
        copies.append((top / "examples" / name, top / "crates/epx" / copy))
    for path, copy in copies:
        if not copy.is_file() or copy.read_bytes() != path.read_bytes():
            yield path, 1, f"{copy.relative_to(top)} is not the same"
