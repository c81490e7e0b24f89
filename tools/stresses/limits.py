"""Limits of the address space, of threads and of open files."""

import resource

from stresses.fed_program import LEAST_REPORT, as_nobody, is_fault
from stresses.lines import OUT_OF_MEMORY


def memory(tool):
    """Limits on the address space, from what the program needs to begin: fault 1, or the right
    answer."""
    came_to = {}
    for kib in [*range(2_048, 40_960, 512), *range(40_960, 1_048_576, 65_536)]:
        limit = resource.RLIMIT_AS, kib * 1024
        begins = tool.run(["--version"], preexec_fn=as_nobody(limit)) if kib < 40_960 else None
        if begins and begins.status != 0:
            continue
        for workers in ("1", "4"):
            ended = tool.run(["run", "--workers", workers, tool.large], preexec_fn=as_nobody(limit))
            is_right = ended.come_to() in ((0, tool.large_report, b""), (3, b"", OUT_OF_MEMORY))
            if not is_right:
                tool.say(f"{kib} KiB, {workers} workers", ended, False, "the report or fault 1")
            came_to.setdefault(ended.status, []).append(kib)
    for status, limits in sorted(came_to.items()):
        print(
            f"       status {status}: {len(limits)} runs, within {min(limits)} to {max(limits)} KiB"
        )


def threads(tool):
    """Limits on the account's threads: the answer needs none but the first."""
    for most in (1, 2, 3, 8):
        limit = resource.RLIMIT_NPROC, most
        ended = tool.run(["run", "--workers", "64", tool.large], preexec_fn=as_nobody(limit))
        is_right = ended.come_to() in ((0, tool.large_report, b""), (3, b"", OUT_OF_MEMORY))
        tool.say(f"{most} threads", ended, is_right, "the report or fault 1")


def files(tool):
    """Limits on open files: all 64 logs are read, or one can not be."""
    for most in (68, 40, 10, 5):
        limit = resource.RLIMIT_NOFILE, most
        ended = tool.run(["run", *[tool.least] * 64], preexec_fn=as_nobody(limit))
        is_whole = ended.come_to() == (0, LEAST_REPORT, b"")
        is_refused = most < 68 and is_fault(ended) and ended.status == 4
        tool.say(f"{most} open files", ended, is_whole or is_refused)
