#!/usr/bin/env python3
"""Starts the replicas of a cluster, prints their ports, and stops them at Ctrl-C.

    cluster.py FOLDER [--replicas N] [--program EPX] ..

They go on from what is in FOLDER. Further options are handed on to each of them.
"""

import argparse
import contextlib
import pathlib
import signal
import subprocess
import sys
import threading
import time

REPLICA = pathlib.Path(__file__).resolve().with_name("replica.py")
# Seconds in which a replica must have a port, and in which it must have stopped.
SOON = 30


def start(folder, number, words, errors=None):
    """Starts a replica, and returns its process once it has a port. Its standard error goes to a
    file, if there is one."""
    port = folder / str(number) / "port"
    port.unlink(missing_ok=True)
    command = [sys.executable, REPLICA, folder, str(number), *words]
    process = subprocess.Popen(command, stderr=errors, start_new_session=True)
    end = time.monotonic() + SOON
    while not port.exists():
        if process.poll() is not None or time.monotonic() > end:
            process.kill()
            raise SystemExit(f"cluster.py: replica {number} did not start")
        time.sleep(0.02)
    return process


def stop(processes):
    """Stops replicas, and returns whether each of them ended well."""
    for process in processes:
        process.terminate()
    return all([process.wait(SOON) == 0 for process in processes])


def main():
    form = argparse.RawDescriptionHelpFormatter
    words = argparse.ArgumentParser(description=__doc__, formatter_class=form)
    words.add_argument("folder", type=pathlib.Path)
    words.add_argument("--replicas", type=int, default=3, choices=[3, 5])
    given, others = words.parse_known_args()
    stopped = threading.Event()
    for number in (signal.SIGINT, signal.SIGTERM):
        signal.signal(number, lambda *_: stopped.set())
    with contextlib.ExitStack() as stack:
        processes = []
        stack.callback(stop, processes)
        for number in range(given.replicas):
            options = ["--replicas", str(given.replicas), *others]
            processes.append(start(given.folder, number, options))
            port = (given.folder / str(number) / "port").read_text().strip()
            print(f"replica {number}: port {port}, process {processes[-1].pid}", flush=True)
        print("Ctrl-C stops them", flush=True)
        ended = set()
        while not stopped.wait(0.2):
            for number, process in enumerate(processes):
                if process.poll() is not None and number not in ended:
                    ended.add(number)
                    print(f"replica {number} ended with status {process.returncode}", flush=True)


if __name__ == "__main__":
    main()
