"""What tools/proof_copies.py has to know of the toolchain, which `tools/test build-kit` tries with
the real one. A module, and no tool itself."""

import pathlib
import shutil
import tempfile

from command_line import say, stop
from program_build import FAILED, all_below
from proof_copies import LIBRARY, PROVED, Copies, link_tree

LIB = """#![tactic(auto)]

ghost use Rattle.std.specs.Prelude.{◌≡◌};

pub fn NAME(x: usize) -> usize
    ensures { result ≡ x }
{
    BODY
}
"""
MAIN = """#![tactic(auto)]

fn main() {
    let _three = upper::upper(3);
}
"""
SMALL = {"lower": set(), "upper": {"lower"}, "small": {"upper"}}


def prove(copies, crate):
    """Proves a crate as a build does, and returns its status."""
    status = copies.start(crate, 1).wait()
    copies.put_back(crate)
    copies.share(crate)
    return status


def write_small(top):
    """Writes a repository of a crate, one that uses it, and a program."""
    texts = {"lower": ("lib", LIB.replace("NAME", "lower").replace("BODY", "x"))}
    texts["upper"] = ("lib", LIB.replace("NAME", "upper").replace("BODY", "lower::lower(x)"))
    texts["small"] = ("main", MAIN)
    rows = [f"{crate}: {' '.join(uses)}\n" for crate, uses in SMALL.items()]
    (top / "crates.txt").write_text("".join(rows))
    for crate, (name, text) in texts.items():
        (top / f"crates/{crate}/src").mkdir(parents=True)
        (top / f"crates/{crate}/src/{name}.rt").write_text(text)


def try_kit(top):
    """Yields what tools/proof_copies.py has to know of the toolchain, and whether it is so."""
    write_small(top)
    copies = Copies(top, all_below(SMALL))
    copies.begin()
    library = copies.out("lower") / LIBRARY
    yield f"rt lib of a crate ends with 0 ({copies.log('lower')})", prove(copies, "lower") == 0
    yield "a proof says logic=proved", copies.is_proved_anew("lower")
    yield f"the library is the folder out/{LIBRARY}", library.is_dir()
    prove(copies, "lower")
    yield "what is proved in one copy is so in another", not copies.is_proved_anew("lower")
    yield "rt lib of a crate above ends with 0", prove(copies, "upper") == 0
    times = len(PROVED.findall(copies.said("upper")))
    yield "a crate above reads the library and does not prove it again", times == 1
    yield "rt run of a program ends with 0", prove(copies, "small") == 0
    yield "a program is out/NAME", (copies.out("small") / "small").is_file()
    kept = top / "kept"
    link_tree(library, kept)
    sums = [it.read_bytes() for it in sorted(kept.rglob("*")) if it.is_file()]
    with open(top / "crates/lower/src/lib.rt", "a") as file:
        file.write("\n// changed\n")
    copies.begin()
    yield "a change is proved", prove(copies, "lower") == 0 and copies.is_proved_anew("lower")
    same = [it.read_bytes() for it in sorted(kept.rglob("*")) if it.is_file()] == sums
    yield "a new library replaces its files and changes none", same
    copies.end()


def test(_program, _seed):
    """Tries with the real toolchain what tools/build has to know of it."""
    if not shutil.which("rt"):
        stop("there is no command rt, which the toolchain rattle-kit-13 has", FAILED)
    say("proves and builds three small crates, in a minute or more")
    tried = wrong = 0
    with tempfile.TemporaryDirectory(prefix="epx-kit-") as room:
        for what, is_so in try_kit(pathlib.Path(room)):
            tried, wrong = tried + 1, wrong + (not is_so)
            if not is_so:
                print(f"WRONG: it is no longer so that {what}", flush=True)
    print(f"tools/build: {tried} things that it knows of the toolchain, {wrong} of them wrong")
    return 1 if wrong else 0
