"""What the rules of `tools/check` read of the tree. A module, and no tool itself."""

# The places of pages and of scripts.
PAGES = ("*.md", "docs/*.md", "docs/results/*.md", "examples/*.md", "examples/*/*.md", "tools/*.md",
         "contrib/*.md", "crates/*/README.md")  # fmt: skip
SCRIPTS = ("tools/*", "tools/*/*", "contrib/*", "contrib/*/*", "examples/*/*.py", "epx", ".ci/run")


def files(top, places):
    """The files of these places, each once. What Python keeps of modules is none."""
    found = [path for place in places for path in sorted(top.glob(place))]
    return [path for path in found if path.is_file() and "__pycache__" not in path.parts]


def pages(top):
    """The pages, each with its lines."""
    return [(page, page.read_text().split("\n")) for page in files(top, PAGES)]


def sources(top):
    """The sources, definitions and proofs, each with its lines."""
    for path in sorted(top.glob("crates/*/**/*")):
        is_source = path.suffix in (".rt", ".antt", ".edit") and path.is_file()
        if is_source and "out" not in path.relative_to(top).parts:
            yield path, path.read_text().split("\n")


def scripts(top):
    """The scripts, each with its lines."""
    found = [path for path in files(top, SCRIPTS) if path.suffix != ".md"]
    return [(path, path.read_text().split("\n")) for path in found]
