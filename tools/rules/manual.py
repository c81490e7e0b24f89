"""The manual page and the completions are those of the help."""

import subprocess

FLAWS = [("share/epx.1", "more")]


def find(top):
    """Files of share/ that are not what tools/docs manual makes of the program's help."""
    for name in ("epx.1", "epx.bash", "_epx", "epx.fish", "epx.help"):
        words = [top / "tools/docs", "manual", "--print", name]
        made = subprocess.run(words, capture_output=True, text=True, check=True).stdout
        if made != (top / "share" / name).read_text():
            yield top / "share" / name, 1, "tools/docs manual writes another text"
