"""The words of `epx --help`, as the gate saw the program print them: crates/epx_cases/stdout."""

import dataclasses
import re

from command_line import TOP

PRINTED = TOP / "crates/epx_cases/stdout"
# The names of the command line that are paths.
PATHS = ("LOG", "BASE", "LIST", "SAID", "HISTORY", "STATE")


@dataclasses.dataclass(frozen=True)
class Option:
    """An option, and the name of the value that it takes and its default, where it takes one."""

    name: str
    short: str
    value: str
    about: str
    default: str


@dataclasses.dataclass(frozen=True)
class Subcommand:
    """A subcommand: its line of the program's help, the names that follow it, its options."""

    name: str
    about: str
    names: tuple
    options: tuple


def help_texts():
    """The long help of the program and of each subcommand, by name."""
    form = r'^== \["epx", (?:"(\w+)", )?"--help"\]\n(.*?)^== ExitCode'
    found = re.findall(form, PRINTED.read_text(), re.M | re.S)
    return {name or "epx": body for name, body in found}


def version():
    return re.search(r'^== \["epx", "--version"\]\n(.*)$', PRINTED.read_text(), re.M)[1]


def options_of(text):
    """The options of a help text. Their value and what they do may be on the next line."""
    form = r"^ +(?:(-\w), )?(--[\w-]+)(?: <(\S+)>)?\s+(\S.*)$(?:\s+\[default: (\S+)\]$)?"
    found = re.findall(form, text.split("\nOptions:\n")[1], re.M)
    return tuple(
        Option(name, short, value, re.sub(r" \(see.*", "", about), default)
        for short, name, value, about, default in found
    )


def names_of(text):
    """The names after a subcommand, as BASE and LOG."""
    usage = re.search(r"^Usage: epx \w+ (.*)$", text, re.M)[1]
    return tuple(re.findall(r"[<\[]([A-Z][.A-Z]*)[>\]]", usage.replace("[OPTIONS]", "")))


def subcommands():
    """The subcommands, in the order of the program's help."""
    texts = help_texts()
    found = []
    rows = re.findall(r"^  ([a-z]+) +(\S.*)$", texts["epx"].split("\nOptions:\n")[0], re.M)
    for name, about in rows:
        text = texts.get(name)
        names = names_of(text) if text else ("COMMAND",)
        found.append(Subcommand(name, about, names, options_of(text) if text else ()))
    return found


def answers_at_once():
    """All words that ask for help or the version, each with the first text that the gate saw for
    them."""
    form = r'^(== \["epx".*"(?:-h|--help|help|-V|--version)"\]\n)((?:(?!== ).*\n)+)'
    found = {}
    for words, text in re.findall(form, PRINTED.read_text(), re.M):
        found.setdefault(words, text)
    return "".join(words + text for words, text in found.items())


def top_options():
    """The options of the program itself."""
    return options_of(help_texts()["epx"])
