"""The tests that `tools/test` runs. A module, and no tool itself."""

import dataclasses


@dataclasses.dataclass(frozen=True)
class Test:
    """What a test tries; the module whose `test` it is, or the words of a tool; the commands of the
    system that it needs; and the parts of it that need one, each with that command."""

    about: str
    module: str = None
    words: tuple = ()
    needs: tuple = ()
    parts: dict = dataclasses.field(default_factory=dict)


SHELLS = {f"completions of {shell}": shell for shell in ("bash", "zsh", "fish")}
LANGUAGES = {"the lines of Go": "go", "those of Java": "javac", "those of Node": "node"}
COMPILERS = {"the fragments of Go": "go", "those of Rust": "rustc"}
TESTS = {
    "bank": Test("the logs that contrib/bank writes", "bank_test"),
    "epx": Test("the Python module, and its followers", "epx_test"),
    "expand": Test("contrib/expand: what is refused", "expand_test"),
    "texts": Test("contrib/texts: answers turned back, and what is refused", "texts_test"),
    "page": Test("tools/page: what a browser shows, and what is refused", "page_test",
                 parts={"the pages of tools/page": "chromium"}),
    "build": Test("tools/build, with a toolchain that only waits", "build_test"),
    "build-kit": Test("what tools/build knows of the toolchain", "build_kit_test", needs=("rt",)),
    "fuzz": Test("that tools/fuzz finds programs that lie", words=("tools/fuzz", "plant")),
    "progress": Test("the line that says at a terminal how far a run is",
                     words=("tools/progress",)),
    "planted": Test("that each tool that compares finds another answer", "tests.planted"),
    "kit": Test("the private parts of the toolchain that tools use", "tests.kit", needs=("rt",)),
    "manual": Test("the examples of the manual page", words=("tools/docs", "manual", "--test")),
    "completions": Test("the completions of shells", words=("tools/docs", "completions"),
                        parts=SHELLS),
    "fragments": Test("the lines of Go and Rust on the pages", words=("tools/docs", "fragments"),
                      parts=COMPILERS),
    "embedding": Test("the lines of docs/EMBEDDING.md", words=("tools/docs", "embedding"),
                      parts=LANGUAGES),
    "commands": Test("the commands of the pages", words=("tools/docs", "commands"),
                     parts={"commands with dot": "dot", "commands with jq": "jq"}),
    "release": Test("the archive of a release", words=("tools/release", "--test")),
    "tools": Test("what all tools promise", words=("tools/tools",)),
    "rules": Test("the rules of tools/check, by planted flaws", words=("tools/check", "--plant")),
}  # fmt: skip
