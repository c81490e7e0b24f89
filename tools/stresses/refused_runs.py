"""Runs with one allocation refused."""

import dataclasses
import os
import pathlib
import struct
import subprocess
import tempfile


def built_counter(folder):
    """Compiles the library that counts and refuses."""
    source, library = pathlib.Path(__file__).with_name("counter.c"), folder / "counter.so"
    words = ["gcc", "-shared", "-fPIC", "-O1", "-fno-builtin", "-o", library, source]
    subprocess.run(words, check=True)
    return library


@dataclasses.dataclass
class Ended:
    """How a run ended: its status (None where it had to be ended), what it wrote, how often it
    asked for memory, and whether it was refused."""

    status: int
    out: bytes
    err: bytes
    asked: int = 0
    is_refused: bool = False


class Runner:
    """Runs a case with the Nth allocation refused, in a folder of its own."""

    def __init__(self, folder, seconds):
        self.folder, self.seconds = folder, seconds
        self.is_ended, self.processes = False, set()
        self.library = built_counter(folder)

    def run(self, case, at):
        with tempfile.TemporaryDirectory(dir=self.folder) as where:
            note = pathlib.Path(where, "note")
            note.write_bytes(bytes(16))
            if case.script:
                pathlib.Path(where, "script").write_text(case.script)
            more = {
                "LD_PRELOAD": str(self.library),
                "REFUSED_AT": str(at),
                "REFUSAL_NOTE": str(note),
            }
            status, out, err = self.output(case, {"cwd": where, "env": os.environ | more})
            if status is None:
                return Ended(None, b"", b"not ended in time")
            asked, refused = struct.unpack("qq", note.read_bytes())
            return Ended(status, out, err, asked, refused == 1)

    def output(self, case, how):
        """The status of a run and what it wrote. The status is None where it was ended."""
        streams = dict.fromkeys(("stdin", "stdout", "stderr"), subprocess.PIPE)
        with subprocess.Popen(case.words, **streams, **how) as process:
            self.processes.add(process)
            try:
                out, err = process.communicate(case.given, self.seconds)
                return process.returncode, out, err
            except subprocess.TimeoutExpired:
                process.kill()
                return None, b"", b""
            finally:
                self.processes.discard(process)

    def end(self):
        """Ends all runs, when the tool is ended."""
        self.is_ended = True
        for process in [*self.processes]:
            process.kill()
