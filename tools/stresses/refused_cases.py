"""What is run with refused allocations: tests, worked cases, and the program over the examples."""

import dataclasses
import subprocess
import sys

from command_line import TOP, stop

# The worked cases that are swept: of one path through all, of a cycle, of a refusal, of every
# plan, of a list and of a base.
WORKED = (
    "run least_whole_path",
    "run reached_through_another_member",
    "run first_disagreement_by_id",
    "run any_plan",
    "check lawful_list",
    "resume waiting_instance_goes_on",
)


@dataclasses.dataclass
class Case:
    """What is run: its crate, its name, its words, what it is given, and what it must print (a
    test: None); and of a worked case the text that is its script."""

    crate: str
    name: str
    words: list
    given: bytes = b""
    wanted: bytes = None
    script: str = None


def is_built(top, built):
    """Whether the program is there, and no source of the repository is newer."""
    if not built.exists():
        return False
    made = built.stat().st_mtime
    files = (
        it
        for it in (top / "crates").rglob("*")
        if "out" not in it.parts and it.suffix in (".rt", ".antt")
    )
    return all(it.stat().st_mtime <= made for it in files)


def build(top, crate, what):
    """Proves and builds the tests of a crate, or the program."""
    words = ["rt", what, "--jobs", "2"]
    ended = subprocess.run(
        words, cwd=top / "crates" / crate, stdin=subprocess.DEVNULL, stdout=sys.stderr
    )
    if ended.returncode:
        stop(f"{crate} could not be built")


def crates_of_tests(top):
    """The crates whose sources have tests."""
    has_test = lambda crate: any(
        "#[test]" in it.read_text() for it in (crate / "src").rglob("*.rt")
    )
    return sorted(it.name for it in (top / "crates").iterdir() if it.is_dir() and has_test(it))


def tests_of(top, crate):
    """The tests that the crate's test program lists."""
    program = top / "crates" / crate / "out" / f"{crate}_tests"
    if not program.exists():
        stop(f"{program} is not there; with --build it is made")
    listed = subprocess.run([program, "--list"], capture_output=True, text=True, check=True).stdout
    names = [it.removesuffix(": test") for it in listed.splitlines() if it.endswith(": test")]
    return [Case(crate, name, [program, name]) for name in names]


def cases_of_program(top):
    """The program over the examples, with two workers that draw items one by one, and with
    neither said."""
    program, examples = top / "crates/epx/out/epx", TOP / "examples"
    if not program.exists():
        stop(f"{program} is not there; with --build it is made")
    logs = sorted(examples.glob("replicas/*.jsonl"))
    damaged = sorted(examples.glob("corrupted/*.jsonl"))
    halves = examples / "halves"
    asked = [
        ("run", logs, examples / "replicas/all.report"),
        ("order", logs, examples / "replicas/all.order"),
        ("levels", logs, examples / "replicas/all.levels"),
        ("blockers", logs, examples / "replicas/all.blockers"),
        ("graph", logs, examples / "replicas/all.dot"),
        ("resume", [halves / "first.report", halves / "second.jsonl"], halves / "second.report"),
        ("audit", logs, examples / "replicas/all.audit"),
        ("compare", damaged, examples / "corrupted/all.compare"),
        (
            "check",
            [examples / "replicas/executed.list", *logs],
            examples / "replicas/executed.check",
        ),
    ]
    cases = []
    for task, paths, wanted in asked:
        for name, plan in ((task, []), (f"{task}, small pieces", ["--workers", "2", "--cut", "1"])):
            cases.append(
                Case("epx", name, [program, task, *plan, *paths], wanted=wanted.read_bytes())
            )
    # Those without a report beside them are logs to follow.
    for wanted in sorted(examples.glob("*.report")):
        log = wanted.with_suffix(".jsonl").read_bytes()
        cases.append(
            Case("epx", f"standard input, {wanted.stem}", [program], log, wanted.read_bytes())
        )
    return cases


def cases_of_scripts(top, script):
    """The worked cases of a script, or those that stand for all."""
    program, data = top / "crates/epx_cases/out/epx_cases", TOP / "crates/epx_cases/data"
    if not program.exists():
        stop(f"{program} is not there; with --build it is made")
    cases = []
    for path in [script] if script else sorted(data.glob("*.txt")):
        for text in path.read_text().split("\n\n"):
            lines = [line for line in text.split("\n") if line and not line.startswith("#")]
            if lines and (script or lines[0] in WORKED):
                wanted = f"== script\n{lines[0]}\n".encode()
                words = [program, "--scripts", "script"]
                cases.append(Case("epx_cases", lines[0], words, wanted=wanted, script=text))
    return cases


def cases_of(top, given):
    """What is swept, of the crates that are named, or of all."""
    cases = []
    for crate in given.crate or [*crates_of_tests(top), "epx_cases", "epx"]:
        is_program = crate in ("epx", "epx_cases")
        built = top / "crates" / crate / "out" / (crate if is_program else f"{crate}_tests")
        if given.build and not is_built(top, built):
            build(top, crate, "run" if is_program else "test")
        if crate == "epx_cases":
            cases += cases_of_scripts(top, given.script)
        else:
            cases += cases_of_program(top) if is_program else tests_of(top, crate)
    return [it for it in cases if given.test in it.name]
