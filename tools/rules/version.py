"""The version of the changes and of the worked calls is that of the sources."""

import re

VERSION = "crates/epx_words/src/commands.rt"
FLAWS = [("crates/epx_cases/stdout", '== ["epx", "--version"]\nepx 0.0.0')]


def find(top):
    """Where the changes, or the worked calls, have another version than the sources."""
    page = top / "CHANGELOG.md"
    version = re.search(r'VERSION: &str = "(.*)"', (top / VERSION).read_text())[1]
    newest = re.search(r"^## (.*)$", page.read_text(), re.M)[1]
    if newest != version:
        yield page, 1, f"the version is {version}"
    page = top / "crates/epx_cases/stdout"
    for printed in re.findall(r'^== \["epx", "--version"\]\nepx (.*)$', page.read_text(), re.M):
        if printed != version:
            yield page, 1, f"the version is {version}"
