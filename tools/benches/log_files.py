"""Lines of logs, and files of them, each within the limit of a log."""

# A file is ended above this, which is below what epx reads of one log.
LOG_BYTES = 60_000_000


def line(replica, number, deps, ops):
    """The line of an instance, whose operations are texts of JSON."""
    named = ",".join(f"[{r},{i}]" for r, i in deps)
    text = ",".join(ops)
    return f'{{"r":{replica},"i":{number},"seq":1,"deps":[{named}],"ops":[{text}]}}\n'.encode()


def write_logs(lines, folder):
    """The paths of logs of these lines, one after another."""
    paths, log, size = [], None, 0
    for text in lines:
        if log is None or size > LOG_BYTES:
            paths.append(str(folder / f"{len(paths)}.jsonl"))
            if log is not None:
                log.close()
            log, size = open(paths[-1], "wb"), 0
        size += log.write(text)
    if log is not None:
        log.close()
    return paths
