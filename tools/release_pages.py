"""The pages of the archive of a release: what is made for it, and what is cut from the pages of the
repository. A module, and no tool itself."""

import hashlib
import posixpath
import re
import textwrap

from command_line import TOP

WIDTH = 100
PAGES = ("CLI", "COMPARING", "EMBEDDING", "FORMAT", "INPUT", "INSTALL", "RECIPES")

README = """# epx {version}

epx executes the committed instances of EPaxos from logs. It reads the logs of several replicas as
JSON lines, and prints one report: each executed command and its reply in execution order, what
waits, and the final store.

    ./epx run examples/replicas/*.jsonl

{report}
`./epx` is the proved program. It needs Linux on x86_64 with the GNU C library, {library} or later,
and no toolchain. This command prints nothing where all files are as they were packed:

    sha256sum --check --quiet SHA256SUMS

To install the program, its manual page, the completions of bash, zsh and fish, and the Python
module:

    ./install PREFIX        # say /usr/local, or $HOME/.local

| Page | What it has |
|---|---|
| [docs/CLI.md](docs/CLI.md) | the subcommands with examples, options, faults, statuses |
| [docs/FORMAT.md](docs/FORMAT.md) | logs, operations, the report, bases, lists, comparisons |
| [docs/INPUT.md](docs/INPUT.md) | from a replica to a log |
| [docs/COMPARING.md](docs/COMPARING.md) | from five logs to the odd replica |
| [docs/RECIPES.md](docs/RECIPES.md) | figures of a graph by `jq`, and orders of other protocols |
| [docs/EMBEDDING.md](docs/EMBEDDING.md) | epx from Python, Go and others |
| [docs/INSTALL.md](docs/INSTALL.md) | where the files go |
| [examples/](examples/README.md) | logs with what epx prints of them |
| `share/` | the manual page, completions, and all texts of help |
| [contrib/](contrib/README.md) | the Python module, `expand`, `texts` and `bank` |
| `tools/` | `page` of [CLI.md](docs/CLI.md#a-page), and modules |
| [PROVED.md](PROVED.md) | what is proved of the program, and what is trusted |
| [CHANGELOG.md](CHANGELOG.md) | what each version can do |
"""

PROVED = """# What is proved of the program

Each function of `epx` is proved to meet its contract before it is built.

| What | Which |
|---|---|
| version | {version} |
| sources | {origin} |
| toolchain, which proves and builds | `{kit}` |
| SHA-256 of `epx` | `{sum}` |

To prove it again, take the repository at that commit and run `rt ci`. The definitions that the
contracts use are there in the folders `crates/*/specs`, and `docs/MODEL.md` says in plain words
what each of them means.

## The theorem

{theorem}

## The contract of `run`

It reads logs from sources and writes their report to a sink. This is the text of
`crates/epx_tool/src/runs.rt`:

{run}

## The contract of `start`

`main` calls it with the words of the command line. This is the text of
`crates/epx_program/src/program.rt`:

{start}

## What is trusted

{trusted}

### Words of the libraries

{words}
"""


def section(page, heading):
    """The text of a page below a heading of second rank, without the heading."""
    text = (TOP / page).read_text()
    return re.search(rf"^## {re.escape(heading)}\n+(.*?)\n*(?=^## |\Z)", text, re.M | re.S)[1]


def contract(path, function):
    """The lines of a public function before its body, as a block."""
    text = (TOP / path).read_text()
    found = re.search(rf"^pub fn {function}<.*?(?=^\{{)", text, re.M | re.S)[0]
    return f"```\n{found}```"


def fill(paragraph):
    """A paragraph whose lines end by the width of pages, where it is nothing but words."""
    is_wide = max(map(len, paragraph.split("\n"))) > WIDTH
    if not is_wide or paragraph.startswith(("|", "    ", "- ", "#", "```")):
        return paragraph
    end = "\n" if paragraph.endswith("\n") else ""
    return textwrap.fill(paragraph, WIDTH, break_long_words=False, break_on_hyphens=False) + end


def fit(place, text, names):
    """A page as it must be at a place of the archive that has files of these names. What the
    archive does not have is named as of the repository."""

    def link(found):
        words, target = found[1], found[2].split("#")[0]
        path = posixpath.normpath(posixpath.join(posixpath.dirname(place), target))
        is_there = path in names or any(name.startswith(path + "/") for name in names)
        if "://" in target or not target or is_there:
            return found[0]
        return f"`{path}` of the repository" if words.endswith(".md") else words

    def tool(found):
        return found[0] if found[1] in names else f"{found[0]} of the repository"

    text = re.sub(r"(?<!!)\[([^\]\[]+)\]\(([^)\s]+)\)", link, text)
    text = re.sub(r"`((?:tools/(?!install)|contrib/)[\w.]+)[^`]*`", tool, text)
    text = text.replace("tools/install", "./install")
    return "\n\n".join(map(fill, text.split("\n\n")))


def install_page():
    """docs/INSTALL.md without what the repository needs."""
    page = "docs/INSTALL.md"
    head, files = section(page, "From the archive of a release"), section(page, "Files")
    return f"# Installing\n\n{head}\n\n## Files\n\n{files}\n"


def proved_page(version, origin, program):
    """PROVED.md, for a program of these bytes."""
    theorem = section("README.md", "The theorem")
    trusted = section("docs/PROOFS.md", "What is trusted")
    return PROVED.format(
        version=version,
        origin=origin,
        kit=re.search(r"rattle-kit-\w+", trusted)[0],
        sum=hashlib.sha256(program).hexdigest(),
        theorem=theorem[: theorem.index("\n- **Trusted**")],
        run=contract("crates/epx_tool/src/runs.rt", "run"),
        start=contract("crates/epx_program/src/program.rt", "start"),
        trusted=fit("docs/PROOFS.md", trusted, ()),
        words=section("docs/MODEL.md", "Words of the libraries"),
    )


def readme(version, program):
    """README.md, for a program of these bytes."""
    report = (TOP / "examples/replicas/all.report").read_text()
    needed = [tuple(map(int, it.split(b"."))) for it in re.findall(rb"GLIBC_(2\.\d+)", program)]
    return README.format(
        version=version,
        report="".join(f"    {line}\n" for line in report.splitlines()),
        library=".".join(map(str, max(needed))),
    )


def pages(version, origin, program, names):
    """The pages of the archive, by path, where it has files of these names beside them."""
    made = {f"docs/{name}.md": (TOP / f"docs/{name}.md").read_text() for name in PAGES}
    made["docs/INSTALL.md"] = install_page()
    for name in ("CHANGELOG.md", "contrib/README.md"):
        made[name] = (TOP / name).read_text()
    examples = (TOP / "examples/README.md").read_text()
    made["examples/README.md"] = examples[: examples.index("\nThe worked cases of `epx_cases`")]
    made["PROVED.md"] = proved_page(version, origin, program)
    made["README.md"] = readme(version, program)
    names = {*names, *made}
    return {place: fit(place, text, names) for place, text in made.items()}
