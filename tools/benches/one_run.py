"""Runs a program once, and prints its seconds, its peak memory in bytes and its status.

    python3 -I -S one_run.py OUT LIMIT PROGRAM WORD..

Its output goes to the file OUT. It is killed after LIMIT seconds, where that is not 0. The peak of
a process counts what the one that starts it holds, so this one holds little.
"""

import os
import signal
import sys
import time


def main():
    out, limit, *words = sys.argv[1:]
    flags = os.O_WRONLY | os.O_CREAT | os.O_TRUNC
    actions = [(os.POSIX_SPAWN_OPEN, 1, out, flags, 0o600)]
    start = time.perf_counter()
    child = os.posix_spawnp(words[0], words, os.environ, file_actions=actions)
    signal.signal(signal.SIGALRM, lambda *_: os.kill(child, signal.SIGKILL))
    signal.alarm(int(limit))
    _, status, usage = os.wait4(child, 0)
    seconds = time.perf_counter() - start
    print(seconds, usage.ru_maxrss * 1024, os.waitstatus_to_exitcode(status))


if __name__ == "__main__":
    main()
