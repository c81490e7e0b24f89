"""The test of contrib/bank: it writes the logs of examples/, the same ones each time. A module, and
no tool itself: `tools/test bank` runs it."""

import pathlib
import subprocess
import tempfile

from command_line import TOP
from trials import is_refused

DAMAGED = ("--replicas", "5", "--instances", "48", "--seed", "6", "--corrupt")
# Words, and the folder of examples that has what they write.
EXAMPLES = (([], "bank"), (DAMAGED, "corrupted"))
# Words that must be refused, each with what is said.
REFUSED = (
    (["--instances", "0"], "argument --instances: '0' is no whole number above 0"),
    (["--unknown"], "unrecognized arguments: --unknown"),
)


def logs_of(words, folder):
    """The logs that words write into a folder, by name."""
    call = [TOP / "contrib/bank", *words, "--out", folder]
    subprocess.run(call, check=True, capture_output=True)
    return {path.name: path.read_bytes() for path in folder.iterdir()}


def test(program, seed):
    """Compares what it writes with the examples, and asks the program about other logs."""
    wrong = 0
    with tempfile.TemporaryDirectory() as room:
        folder = pathlib.Path(room)
        for words, name in EXAMPLES:
            wanted = {path.name: path.read_bytes() for path in TOP.glob(f"examples/{name}/*.jsonl")}
            wrong += logs_of(words, folder / name) != wanted
        logs_of(["--instances", "1000", "--seed", str(seed)], folder / "large")
        words = [program, "audit", *sorted((folder / "large").iterdir())]
        wrong += subprocess.run(words, capture_output=True, check=True).stdout != b'["covered"]\n'
        wrong += sum(not is_refused("bank", words, 2, why, folder) for words, why in REFUSED)
    tried = len(EXAMPLES) + 1 + len(REFUSED)
    print(f"contrib/bank: {tried} sets of logs and of words, {wrong} of them wrong")
    return 1 if wrong else 0
