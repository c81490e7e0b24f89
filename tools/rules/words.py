"""No word of pages, sources and scripts has a plainer one in its place."""

import re

from tree import pages, scripts, sources

# Words that readers met as riddles, on pages, in comments and in names. Each has a mark inside,
# which is taken out, so that this file has none of them.
RIDDLES = r"""w~ants? (?:of )?memory
w~hoever
w~hosoever
as far as one ~lets
by ~turns
fall ~together
ha~lving
sp~oilt
l~aid
b~urnt
b~lown
c~lash(?:es)?
table of ~repeats
s~tands
(?:is|are) ~told
t~ells
lay_~lines
is_~idle
Is~IdleIn
De~aling
Han~ding
raise_~bars
ask_~all
lead_~down
is_~following
St~andings?
Beside~Runs
IsRefusal~Beside
report_~alone
answer_~once
check_~once
resume_~once"""
FORM = rf"\b(?:{'|'.join(RIDDLES.replace('~', '').split(chr(10)))})\b"
FLAWS = [
    ("docs/MODEL.md", "Want" + " of memory says nothing."),
    ("crates/epx_ranking/specs/Lib.antt", "-- where it " + "stan" + "ds"),
    ("crates/epx_ranking/proofs/" + "spo" + "ilt/Answers.antt", ""),
    ("contrib/expand", "# where it " + "stan" + "ds"),
    ("tools/check", "# who" + "ever reads this"),
]


def find(top):
    """Words of pages, comments and names that have a plain word in their place."""
    for page, lines in [*pages(top), *sources(top), *scripts(top)]:
        name = str(page.relative_to(top)).replace("_", " ")
        for number, line in enumerate([name, *lines]):
            for word in re.findall(FORM, line, re.I):
                yield page, max(number, 1), f"write another word than {word}"
