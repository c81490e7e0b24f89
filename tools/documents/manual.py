"""Writes the manual page and the completions of shells from the words of `epx --help`.

    tools/docs manual              writes share/epx.1, epx.bash, _epx and epx.fish, and epx.help,
                                   which ./epx answers from where the program is not built
    tools/docs manual --print NAME prints one of them
    tools/docs manual --test       runs the examples of the page by the built program

The words are those that the gate saw the program print, in crates/epx_cases/stdout. The faults are
those of docs/CLI.md, and the lines of a report those of docs/FORMAT.md. `tools/check` compares the
files with what this script makes of them.
"""

import itertools
import os
import re
import subprocess
import sys
import tempfile
import textwrap

from command_line import TOP, Words, stop
from documents import shells
from documents.help_of_epx import (
    answers_at_once,
    help_texts,
    names_of,
    subcommands,
    top_options,
    version,
)

# The day of what this script says by itself.
DAY = "2026-12-01"
# What a status means; those of faults have the numbers of their faults behind this.
STATUSES = {
    "0": "an answer; or help, or the version",
    "1": "the logs, BASE, LIST, SAID, HISTORY or STATE are refused",
    "2": "the words are refused, those too that have --exit-code and name no LOG",
    "3": "out of memory",
    "4": "one of these cannot be read, or the answer or the state cannot be written",
    "5": "only with --exit-code: an audit that is not covered, a check that is not lawful, a "
    "replica that said something wrong, a history that is not linear, a comparison with a line "
    "bad, differs or lacks; or, of run, order, levels, blockers and resume, an instance that "
    "waits",
}
# Commands that need no file, and what they print.
EXAMPLES = [
    (
        "A log of one instance, and its report:",
        """\
printf '%s\\n' >one.jsonl \\
  '{"r":0,"i":0,"seq":1,"deps":[],"ops":[["put","a",5],["get","a"]]}'
epx run one.jsonl
""",
        """\
["executed",1,"waiting",0,"components",1]
["reply",0,0,"ok",[5]]
["store","a",5]
""",
    ),
    (
        "Two logs, of which the second has an instance that waits, and why it does:",
        """\
printf '%s\\n' >0.jsonl \\
  '{"r":0,"i":0,"seq":1,"deps":[],"ops":[["put","b",7]]}'
printf '%s\\n' >1.jsonl \\
  '{"r":1,"i":0,"seq":3,"deps":[[0,0],[0,1]],"ops":[]}'
epx run 0.jsonl 1.jsonl
epx why 1.0 0.jsonl 1.jsonl
""",
        """\
["executed",1,"waiting",1,"components",1]
["reply",0,0,"ok",[]]
["waiting",1,0,0,1]
["store","b",7]
["waiting",1,0,0,1]
["needs",0,1,1]
""",
    ),
]


def escaped(text):
    """Text of which each character is printed as it is."""
    signs = {"\\": "\\e", "-": "\\-", "'": "\\(aq", "^": "\\(ha", "~": "\\(ti"}
    return re.sub(r"[\\'^~-]", lambda sign: signs[sign[0]], text)


def lines_of(text):
    """Lines of text, of which none is a request."""
    return "".join(("\\&" if line[:1] == "." else "") + line + "\n" for line in text.split("\n"))


def verbatim(text):
    """Text whose lines stay as they are."""
    return f".nf\n{lines_of(escaped(text))}.fi\n"


def filled(text):
    """Text of a page as a paragraph of the manual, its code in bold."""
    text = re.sub(r"\[([^]\[]*)\]\([^)]*\)", r"\1", " ".join(text.split()))
    parts = escaped(text).split("`")
    text = "".join(f"\\fB{part}\\fR" if odd % 2 else part for odd, part in enumerate(parts))
    return lines_of(textwrap.fill(text, 80, break_on_hyphens=False, break_long_words=False))


def item(name, text):
    """A name in bold, and what it is."""
    return f".TP\n\\fB{escaped(name)}\\fR\n{filled(text)}"


def indented(text):
    """Lines of help with blanks in front: answers with what they mean, or lines that stay."""
    rows = re.findall(r"^  (\[.*?\])  +(\S.*(?:\n {10,}\S.*)*)$", text, re.M)
    is_table = rows and len(re.findall(r"^  \S", text, re.M)) == len(rows)
    return "".join(itertools.starmap(item, rows)) if is_table else verbatim(text)


def help_paragraph(text):
    """A paragraph of help, in which lines with blanks in front are a part of their own."""
    parts = []
    for is_verbatim, lines in itertools.groupby(text.split("\n"), lambda line: line[:1] == " "):
        # the files of examples are not where the page is installed
        lines = "\n".join(lines).replace("examples/replicas/", "")
        parts.append(indented(lines) if is_verbatim else filled(lines))
    return "".join(parts)


def parts_of_help(text):
    """The paragraphs of a help text before its usage, and behind its options."""
    about = text.split("\n\nUsage:")[0]
    behind = text.split("\nOptions:\n")[1].strip("\n").split("\n\n")
    return [about, *itertools.dropwhile(lambda part: part.startswith(" "), behind)]


def paragraphs(parts):
    """Parts of a section, with room between them; items have their own."""
    first, *others = parts
    return first + "".join(part if part.startswith(".TP") else ".PP\n" + part for part in others)


def option_item(option):
    """An option, with its short form and its value."""
    short = f"{option.short}, " if option.short else ""
    value = f" {option.value}" if option.value else ""
    default = f"; {option.default} where it is not given" if option.default else ""
    return item(f"{short}{option.name}{value}", option.about + default)


def description(texts):
    """What the program's own help says, and its subcommands."""
    about, *behind = parts_of_help(texts["epx"])
    rows = "".join(item(command.name, command.about) for command in subcommands())
    return ".SH DESCRIPTION\n" + paragraphs([filled(about) + rows, *map(help_paragraph, behind)])


def common_options():
    """The options of the program and those that all subcommands with logs have."""
    options = [*top_options(), *shells.common_options()]
    return list({option.name: option for option in options}.values())


def option_section():
    head = filled("All subcommands with logs have these, but `--version`, which epx alone has.")
    return f".SH OPTIONS\n{head}{''.join(map(option_item, common_options()))}"


def command_section(command, text):
    """What the help of a subcommand says, but for the options that all have."""
    about, *behind = parts_of_help(text)
    names = [f"<{name}>" if name != "LOG" else "[LOG]..." for name in names_of(text)]
    usage = verbatim(" ".join(["epx", command.name, "[OPTIONS]", *names]))
    common = {option.name for option in common_options()}
    own = "".join(option_item(one) for one in command.options if one.name not in common)
    parts = [filled(about), usage + own, *map(help_paragraph, behind)]
    return f".SH EPX {command.name.upper()}\n{paragraphs(parts)}"


def section_of(page, heading):
    """The text of a section of a page."""
    found = re.search(rf"^#+ {heading}\n(.*?)(?=^#|\Z)", (TOP / page).read_text(), re.M | re.S)
    if not found:
        stop(f"{page} has no section {heading}", 1)
    return found[1]


def table(page, heading, first):
    """The rows of the table of a section of a page whose head begins so."""
    found = re.search(rf"^\| {first} \|.*\n\|-.*\n((?:\|.*\n)+)", section_of(page, heading), re.M)
    if not found:
        stop(f"{page} has no table {first} in its section {heading}", 1)
    rows = [re.split(r"(?<!\\)\|", row)[1:-1] for row in found[1].splitlines()]
    return [[cell.strip() for cell in row] for row in rows]


def items_of(rows):
    """Items of the first two columns of a table."""
    return "".join(item(row[0].replace("`", ""), row[1]) for row in rows)


def log_section():
    """The members of a line and the operations, as docs/FORMAT.md has them."""
    members = items_of(table("docs/FORMAT.md", "Logs", "Member"))
    operations = items_of(table("docs/FORMAT.md", "Operations", "Operation"))
    head = filled("A line is a JSON object with these members, and others that are ignored:")
    return f".SH LOGS\n{head}{members}.PP\nThe operations are:\n{operations}"


def report_section():
    """The lines of a report, as docs/FORMAT.md has them."""
    text = section_of("docs/FORMAT.md", "Report")
    rows = re.findall(r"^(\d\.) (.*?)(?=^\d\. |^$)", text, re.M | re.S)
    resumed = re.search(r"^The report of a resumed run.*?(?=^$)", text, re.M | re.S)
    if len(rows) != 4 or not resumed:
        stop("docs/FORMAT.md has no four kinds of lines of a report", 1)
    items = "".join(f".IP {number} 4\n{filled(row)}" for number, row in rows)
    return f".SH REPORT\nA report has these lines:\n{items}.PP\n{filled(resumed[0])}"


def fault_rows():
    """The number, the name, the text and the status of each fault."""
    rows = table("docs/CLI.md", "Faults and exit statuses", "Number")
    return [[cell.strip("`") for cell in row] for row in rows]


def fault_section():
    """The faults, as docs/CLI.md has them, and why a line is bad, as docs/FORMAT.md has it."""
    faults = [item(text, f"`{name}`, status {status}") for _, name, text, status in fault_rows()]
    head = filled(
        "A fault prints its line on standard error. Capital letters are decimal numbers. Logs "
        "count from 0; BASE, LIST, SAID, HISTORY and STATE have the number after the last log."
    )
    why = filled("WHY is the first of these that applies to the line, its members as in LOGS:")
    whys = items_of(table("docs/FORMAT.md", "Logs", "Fault of a line"))
    return f".SH FAULTS\n{head}{''.join(faults)}.PP\n{why}{whys}"


def status_section():
    """The exit statuses, with the faults that end so."""
    rows = fault_rows()
    if not {row[3] for row in rows} <= STATUSES.keys():
        stop("docs/CLI.md has a status that this script does not know", 1)
    parts = [".SH EXIT STATUS\n"]
    for status, text in STATUSES.items():
        numbers = [row[0] for row in rows if row[3] == status]
        plural = "s" if len(numbers) > 1 else ""
        faults = f" (fault{plural} {', '.join(numbers)})" if numbers else ""
        parts.append(item(status, text + faults))
    return "".join(parts)


def example_section():
    parts = []
    for head, commands, wanted in EXAMPLES:
        parts += [filled(head), verbatim(commands.rstrip("\n")), verbatim(wanted.rstrip("\n"))]
    return ".SH EXAMPLES\n" + paragraphs(parts)


def man_page():
    texts = help_texts()
    # no word is hyphenated or stretched, since many are code
    head = f'.TH EPX 1 {DAY} "{version()}" "User Commands"\n.nh\n.ad l\n'
    name = ".SH NAME\nepx \\- executes the committed instances of EPaxos from their logs\n"
    synopsis = ".SH SYNOPSIS\n" + verbatim("epx COMMAND [OPTIONS] [LOG]...\nepx")
    with_help = [command for command in subcommands() if command.name in texts]
    commands = [command_section(command, texts[command.name]) for command in with_help]
    parts = [description(texts), option_section(), *commands, log_section(), report_section()]
    parts += [fault_section(), status_section(), example_section()]
    return "".join([head, name, synopsis, *parts, ".SH SEE ALSO\n.BR dot (1),\n.BR tred (1)\n"])


MAKERS = {
    "epx.1": man_page,
    "epx.bash": shells.bash,
    "_epx": shells.zsh,
    "epx.fish": shells.fish,
    "epx.help": answers_at_once,
}


def test():
    """Whether the examples of the page print what it shows."""
    folder, is_right = TOP / "crates/epx/out", True
    if not (folder / "epx").is_file():
        stop("the program is not built; ./epx --version builds it", 1)
    env = {**os.environ, "PATH": f"{folder}:{os.environ['PATH']}"}
    for head, commands, wanted in EXAMPLES:
        with tempfile.TemporaryDirectory(prefix="epx-manual-") as room:
            words = ["bash", "-ec", commands]
            text = subprocess.run(words, cwd=room, env=env, capture_output=True, check=True).stdout
        if text.decode() != wanted:
            print(f"WRONG: {head}\n{text.decode()}")
            is_right = False
    found = "all right" if is_right else "WRONG"
    print(f"tools/docs manual: {len(EXAMPLES)} examples were run, {found}")
    return is_right


def main():
    words = Words(__doc__)
    words.add_argument("--print", metavar="NAME", choices=MAKERS)
    words.add_argument("--test", action="store_true")
    given = words.parse_args()
    if given.test:
        return 0 if test() else 1
    if given.print:
        sys.stdout.write(MAKERS[given.print]())
        return 0
    for name, make in MAKERS.items():
        (TOP / "share" / name).write_text(make())
    print(f"tools/docs manual: wrote {', '.join(MAKERS)} into share/")
    return 0

