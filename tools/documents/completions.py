"""Completes command lines in real shells, by the completions of share/, and compares what they
offer with lists.

    tools/docs completions               bash, zsh and fish; the exit status is 1 where one is wrong
    tools/docs completions --only zsh    one of them

A shell that is not installed is skipped. bash and zsh run on a terminal and are typed into: bash
inserts all that it offers, and zsh writes down what its completion adds. fish prints what it
offers. The last line says what was found.
"""

import os
import pathlib
import pty
import re
import shlex
import shutil
import subprocess
import tempfile
import time

from command_line import TOP, Words

SHELLS = ("bash", "zsh", "fish")
SECONDS = 20
COMMANDS = """run order levels blockers graph resume audit check verify linear replay compare why
    trace follow help""".split()
FILES = ["--odd.jsonl", "logs", "my log.jsonl", "one.jsonl"]

BASH_START = """
PS1= HISTFILE=
source {share}/epx.bash
bind 'set bell-style none'
bind '"\\C-xa": insert-completions'
save() {{ printf '%s\\n' "$READLINE_LINE" >>{out}; READLINE_LINE= READLINE_POINT=0; }}
bind -x '"\\C-xs": save'
"""
ZSH_START = """
PS1= LISTMAX=10000
unsetopt beep
fpath=({share} $fpath)
autoload -Uz compinit && compinit -u -d {room}/dump
compadd() {{
    if [[ ${{@[1,(i)(-|--)]}} != *-(O|A|D)\\ * ]]; then
        local -a added
        builtin compadd -A added "$@"
        (( $#added )) && print -rl -- $added >>{out}
    fi
    builtin compadd "$@"
}}
save() {{ print -r -- "=$BUFFER" >>{out}; BUFFER= }}
zle -N save
bindkey '^Xa' complete-word '^Xs' save
"""


def options_of(command):
    """The options of a subcommand by its help, or of the program."""
    text = (TOP / "crates/epx_cases/stdout").read_text()
    words = f'"epx", "{command}", "--help"' if command else '"epx", "--help"'
    text = text[text.index(f"== [{words}]") :].split("\nOptions:\n", 1)[1].split("== ", 1)[0]
    return re.findall(r"^ +(?:-\w, )?(--[\w-]+)", text, re.M)


def cases_of(command):
    """Those that each subcommand has."""
    yield f"epx {command} --", options_of(command)
    yield f"epx {command} --workers ", []
    yield f"epx {command} --workers=", []
    yield f"epx {command} --cut 2", []
    rest = [option for option in options_of(command) if option != "--workers"]
    yield f"epx {command} --workers 4 --", rest
    has_path = command not in ("why", "trace")
    yield f"epx {command} ", FILES if has_path else []
    yield f"epx {command} o", ["one.jsonl"] if has_path else []
    yield f"epx {command} --explain --workers 4 o", ["one.jsonl"] if has_path else []
    yield f"epx {command} 0.1 ", FILES
    yield f"epx {command} 0.1 m", ["my log.jsonl"]
    yield f"epx {command} one.jsonl -- --o", ["--odd.jsonl"]
    yield f"epx {command} one.jsonl -- --w", []


def cases():
    """Command lines up to the cursor, each with what is offered."""
    yield "epx ", COMMANDS
    yield "epx ru", ["run"]
    yield "epx r", ["run", "resume", "replay"]
    yield "epx rnu", COMMANDS
    yield "epx -", options_of(None)
    yield "epx --", options_of(None)
    yield "epx --v", ["--version"]
    yield "epx nothing ", []
    yield "epx help ", COMMANDS
    yield "epx help wh", ["why"]
    yield "epx help why ", []
    for command in COMMANDS[:-1]:
        yield from cases_of(command)
    yield "epx check --pr", ["--prefix"]
    yield "epx trace --re", ["--reads"]
    yield "epx why --re", ["--reaches"]
    yield "epx why --reaches ", []
    yield "epx why --reaches 0.1 ", []
    yield "epx why 0.1 --reaches ", []
    yield "epx why 0.1 --reaches 0.2 o", ["one.jsonl"]
    yield "epx follow --state ", FILES
    yield "epx follow --save o", ["one.jsonl"]
    yield "epx follow --state one.jsonl --", [
        option for option in options_of("follow") if option != "--state"]  # fmt: skip
    yield "epx run my\\ ", ["my log.jsonl"]
    yield 'epx run "my', ["my log.jsonl"]
    yield "epx run logs/", ["two.jsonl"]


class Terminal:
    """A shell on a terminal, which writes what it offers into a file."""

    def __init__(self, room, words, start):
        self.out, self.read = room / "out", 0
        self.out.write_text("")
        file = room / ("start" if words[0] == "bash" else ".zshrc")
        file.write_text(start.format(share=TOP / "share", room=room, out=self.out))
        inner, outer = pty.openpty()
        env = {**os.environ, "TERM": "dumb", "INPUTRC": "/dev/null", "ZDOTDIR": str(room)}
        streams = {"stdin": outer, "stdout": outer, "stderr": outer}
        self.terminal, self.ran = inner, subprocess.Popen(
            words, cwd=room / "files", env=env, start_new_session=True, **streams
        )
        os.close(outer)
        os.set_blocking(inner, False)

    def drain(self):
        """Reads what the shell shows, so that it never waits for a reader."""
        try:
            os.read(self.terminal, 1 << 16)
        except (BlockingIOError, OSError):
            time.sleep(0.01)

    def complete(self, line, is_done):
        """The lines that the shell writes until one is the last, after this one was typed."""
        os.write(self.terminal, line.encode() + b"\x18a\x18s")
        end = time.monotonic() + SECONDS
        while time.monotonic() < end:
            lines = self.out.read_text().split("\n")[self.read : -1]
            if lines and is_done(lines[-1]):
                self.read += len(lines)
                return lines
            self.drain()
        raise TimeoutError(f"{line!r} was not completed within {SECONDS} seconds")

    def close(self):
        self.ran.kill()
        self.ran.wait()
        os.close(self.terminal)


def bash(room):
    """What completes a line in bash: it inserts all, each with a blank behind it."""
    words = ["bash", "--noprofile", "--rcfile", str(room / "start"), "-i"]
    shell = Terminal(room, words, BASH_START)

    def offered(line):
        text = shell.complete(line, lambda _: True)[-1]
        begun = len(shlex.split(line + ('x"' if '"' in line else "x"))) - 1
        return [] if text == line else shlex.split(text)[begun:]

    return offered, shell.close


def zsh(room):
    """What completes a line in zsh: it writes each, and last the line behind an equals sign."""
    shell = Terminal(room, ["zsh", "-i"], ZSH_START)

    def offered(line):
        *added, last = shell.complete(line, lambda text: text.startswith("="))
        # within quotes a blank needs no backslash
        names = added if '"' in line else [shlex.split(text)[0] for text in added]
        found = [name.removesuffix("=") for name in names]
        # a misspelt word stays, and what is offered alone is inserted
        is_same, is_alone = last == "=" + line, len(plain(found)) == 1
        if line == "epx rnu" and not is_same or is_alone and is_same:
            return [f"{found}, which makes the line {last[1:]!r}"]
        return found

    return offered, shell.close


def fish(room):
    """What completes a line in fish: it prints each, with a text behind a tab."""

    def offered(line):
        script = f"source {TOP}/share/epx.fish; complete -C $argv[1]"
        words = ["fish", "--no-config", "-c", script, line]
        ended = subprocess.run(
            words, cwd=room / "files", capture_output=True, text=True, check=True
        )
        return [row.split("\t")[0].removesuffix("=") for row in ended.stdout.splitlines()]

    return offered, lambda: None


def plain(names):
    """Names in one order and without folders, since shells differ in these."""
    return sorted({re.sub(r"^logs/(?=.)|/$", "", name) for name in names})


def try_shell(shell):
    """How many lines a shell completes as it should, and how many otherwise."""
    right = wrong = 0
    with tempfile.TemporaryDirectory(prefix="epx-completions-") as name:
        room = pathlib.Path(name)
        (room / "files/logs").mkdir(parents=True)
        for file in [*FILES, "logs/two.jsonl"]:
            if file != "logs":
                (room / "files" / file).write_text("")
        offered, close = globals()[shell](room)
        try:
            for line, wanted in cases():
                # fish takes only what has the letters of the word, in their order
                wanted = [] if (shell, line) == ("fish", "epx rnu") else wanted
                found = offered(line)
                if plain(found) == plain(wanted):
                    right += 1
                else:
                    wrong += 1
                    print(f"WRONG: {shell} offers {found} for {line!r}, and not {wanted}")
        except (TimeoutError, subprocess.CalledProcessError) as error:
            wrong += 1
            print(f"WRONG: {shell} stopped: {error}")
        finally:
            close()
    return right, wrong


def main():
    words = Words(__doc__)
    words.add_argument("--only", choices=SHELLS)
    only = words.parse_args().only
    said, is_wrong = [], False
    for shell in [only] if only else SHELLS:
        if shutil.which(shell):
            right, wrong = try_shell(shell)
            said.append(f"{shell} {right} lines right, {wrong} wrong")
            is_wrong = is_wrong or wrong > 0
        else:
            said.append(f"{shell} skipped, since it is not installed")
    print(f"tools/docs completions: {'; '.join(said)}")
    return 1 if is_wrong else 0

