"""What the subcommands of epx are given to answer about logs."""

import json
import subprocess

from benches.log_files import write_logs

QUESTIONS = (
    "run order levels blockers graph resume audit check linear compare follow why trace".split()
)


def answer(program, question, logs):
    """What the program answers, line by line."""
    ended = subprocess.run([program, question, *logs], stdout=subprocess.PIPE, check=True)
    return ended.stdout.splitlines(keepends=True)


def first_instance(logs):
    """The first line of the first log."""
    with open(logs[0]) as lines:
        return json.loads(next(lines))


def first_words(program, question, logs, folder):
    """What a question is given before the logs: the execution order as a list, calls of clients
    that are linear, as a base the report of the first half of the lines, or the Id or a key of the
    first instance."""
    if question == "why":
        return ["{r}.{i}".format(**first_instance(logs))]
    if question == "trace":
        return [first_instance(logs)["ops"][0][1]]
    if question == "check":
        rows = (json.loads(text) for text in answer(program, "order", logs))
        lines = [f"[{row[1]},{row[2]}]\n".encode() for row in rows if row[0] == "order"]
    elif question == "linear":
        rows = [text for text in answer(program, "run", logs) if text.startswith(b'["reply"')]
        numbered = enumerate(json.loads(text) for text in rows)
        calls = (["call", *row[1:3], at, at + 50, *row[3:]] for at, row in numbered)
        lines = [json.dumps(call, separators=(",", ":")).encode() + b"\n" for call in calls]
    elif question == "resume":
        texts = [text for log in logs for text in open(log, "rb")]
        (folder / "half").mkdir(exist_ok=True)
        lines = answer(program, "run", write_logs(texts[: len(texts) // 2], folder / "half"))
    else:
        return []
    (folder / question).write_bytes(b"".join(lines))
    return [str(folder / question)]


def in_batches(logs, folder):
    """The paths of these logs with a blank line after each hundred lines."""
    paths = []
    for number, log in enumerate(logs):
        paths.append(str(folder / f"batches {number}"))
        with open(log, "rb") as lines, open(paths[-1], "wb") as batches:
            for at, text in enumerate(lines, 1):
                batches.write(text if at % 100 else text + b"\n")
    return paths


def words_of(program, question, logs, folder):
    """The words that a question is given about logs; their files are made in a folder where they
    are not there."""
    read = in_batches(logs, folder) if question == "follow" else logs
    return [*first_words(program, question, logs, folder), *read]
