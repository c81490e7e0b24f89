"""The chart is that of the times in docs/PERFORMANCE.md."""

import subprocess

FLAWS = [("docs/PERFORMANCE.md", "| more | other logs | 1.0 | 0.500 | 0.400 |")]


def find(top):
    """Whether the chart is not that of the times in docs/PERFORMANCE.md."""
    page = top / "docs/PERFORMANCE.md"
    words = [top / "tools/docs", "chart"]
    drawn = subprocess.run(words, capture_output=True, text=True, check=True).stdout
    if drawn != (top / "docs/times.svg").read_text():
        yield page, 1, "docs/times.svg is not what tools/docs chart draws"
