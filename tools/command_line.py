"""How scripts read their words, say how far they are, and end. A module, and no tool itself."""

import argparse
import contextlib
import os
import pathlib
import signal
import subprocess
import sys
import threading
import time

TOP = pathlib.Path(__file__).resolve().parent.parent
# The archive of a release has PROVED.md, and the program beside it.
PROGRAM = TOP / ("epx" if (TOP / "PROVED.md").exists() else "crates/epx/out/epx")
# Scripts of one folder import modules of the others.
sys.path += [str(TOP / folder) for folder in ("tools", "contrib", "contrib/tests")]
# The folder and the name of the script, and its subcommand, if it has some.
NAME = "/".join(pathlib.Path(sys.argv[0]).resolve().parts[-2:])
# The seconds between two lines that say how far a tool is.
OFTEN = 10


# How the next line begins, where it is written over one that said how far the tool is.
over = ""


def say(text):
    """A line of the tool about itself, which is no part of what it prints."""
    global over
    print(f"{over}{NAME}: {text}", file=sys.stderr, flush=True)
    over = ""


def say_for_now(text):
    """As `say`, but on a terminal the next line is written over this one."""
    global over
    if not sys.stderr.isatty():
        return say(text)
    # some terminals do not say how wide they are
    columns = os.get_terminal_size(sys.stderr.fileno()).columns or 80
    line = f"{NAME}: {text}"[: columns - 1]
    print(f"{over}{line}", end="", file=sys.stderr, flush=True)
    over = "\r\x1b[K"


def stop(why, status=2):
    """Ends the tool with one line, and by default with the status of words that are refused."""
    say(why)
    sys.exit(status)


class Words(argparse.ArgumentParser):
    """Reads the words of a tool. `--help` prints the text of the tool and ends it."""

    def __init__(self, text):
        form = argparse.RawDescriptionHelpFormatter
        super().__init__(prog=NAME, description=text, formatter_class=form, allow_abbrev=False)

    def error(self, message):
        stop(f"{message}; {NAME} --help says what it takes")

    def add_program(self):
        self.add_argument("--program", default=str(PROGRAM), help="by default the built one")


def count(word):
    """A number of a word that must be a whole one above 0."""
    if not word.isascii() or not word.isdigit() or int(word) == 0:
        raise argparse.ArgumentTypeError(f"{word!r} is no whole number above 0")
    return int(word)


def some_of(names, said=None):
    """Reads words with commas between them, each of which must be one of these names."""

    def read(word):
        for name in word.split(","):
            if name not in names:
                raise argparse.ArgumentTypeError(f"{name!r} is none of {said or ', '.join(names)}")
        return word.split(",")

    return read


# Reads numbers of workers, with commas between them.
workers = some_of([str(number) for number in range(1, 65)], "1 to 64")


def built(program):
    """The absolute path of a program, which must be there."""
    path = pathlib.Path(program).absolute()
    if not path.is_file() or not os.access(path, os.X_OK):
        stop(f"there is no program {program}: ./epx run builds it")
    return str(path)


def counted(what, items):
    """The items one by one. Says what they are at the start, and then now and then how many are
    done."""
    items = list(items)
    say(f"{len(items):,} {what}")
    said = time.monotonic()
    for done, item in enumerate(items):
        if time.monotonic() - said >= OFTEN:
            said = time.monotonic()
            say(f"{done:,} of {len(items):,} {what}")
        yield item


@contextlib.contextmanager
def going_on(what):
    """Says what is done meanwhile, and then now and then for how many seconds."""
    ended, began = threading.Event(), time.monotonic()

    def watch():
        while not ended.wait(2 * OFTEN):
            say(f"{time.monotonic() - began:.0f} seconds so far")

    say(what)
    watcher = threading.Thread(target=watch, daemon=True)
    watcher.start()
    try:
        yield
    finally:
        ended.set()
        watcher.join()


def end_by(number, _):
    """Ends the tool by an exception, so that what it made in folders for a while is removed."""
    for other in SIGNALS:
        signal.signal(other, signal.SIG_IGN)
    stop(f"ended by {signal.Signals(number).name}", 128 + number)


SIGNALS = (signal.SIGINT, signal.SIGTERM, signal.SIGHUP)


def run(main):
    """Ends the tool with the status that main returns. No signal and no closed pipe ends it with
    a traceback."""
    for number in SIGNALS:
        if signal.getsignal(number) is not signal.SIG_IGN:
            signal.signal(number, end_by)
    try:
        status = main()
        sys.stdout.flush()
    except subprocess.CalledProcessError as error:
        command = " ".join(map(str, error.cmd[:2]))
        stop(f"{command} .. ended with {error.returncode}: {(error.stderr or b'')[:200]!r}")
    except BrokenPipeError:
        # the reader of the output has enough of it
        os.dup2(os.open(os.devnull, os.O_WRONLY), 1)
        status = 128 + signal.SIGPIPE
    sys.exit(status)
