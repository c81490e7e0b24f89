"""64 logs of the greatest size, and with as many instances as are allowed."""

import dataclasses
import pathlib
import re
import resource

from stresses.fed_program import MIB, NOTHING

LONGEST_LOG = 67_108_864
MOST_INSTANCES = 1_048_576


def no_op(log, line):
    return '{"r":%d,"i":%d,"seq":1,"deps":[],"ops":[]}\n' % (log, line)


def long_key(log, line):
    return '{"r":%d,"i":%d,"seq":1,"deps":[],"ops":[["put","%02d%062d",1]]}\n' % (
        log,
        line,
        log,
        line,
    )


def many_keys(log, line):
    first = (line * 64 + log) * 64
    ops = ",".join(['["del","%x"]' % it for it in range(first, first + 64)])
    return '{"r":%d,"i":%d,"seq":1,"deps":[],"ops":[%s]}\n' % (log, line, ops)


@dataclasses.dataclass
class Shape:
    """What 64 logs are made of: a piece that is repeated, or the line of a log and a number; and
    the limit, in bytes of memory a byte of input."""

    name: str
    piece: bytes = None
    line: object = None
    limit: int = 10


SHAPES = [
    Shape("line feeds", piece=b"\n"),
    Shape("one blank line without end", piece=b" "),
    Shape("one line without end", piece=b"["),
    Shape("no-ops", line=no_op),
    Shape("keys of 64 bytes", line=long_key),
    Shape("64 short operations of many keys", line=many_keys, limit=18),
]


def write_log(path, shape, log, size, most_lines):
    """Writes a log of about this size and at most so many lines, and returns its bytes and
    lines."""
    with open(path, "wb") as file:
        if shape.piece:
            for _ in range(size // MIB):
                file.write(shape.piece * MIB)
            file.write(shape.piece * (size % MIB))
            return size, 0
        written = line = 0
        while written < size and line < most_lines:
            many = min(1_000, most_lines - line)
            part = "".join(shape.line(log, line + it) for it in range(many)).encode()
            if written + len(part) > LONGEST_LOG:
                break
            file.write(part)
            written, line = written + len(part), line + many
        return written, line


def free_memory():
    """The bytes that the system has left for a program."""
    text = pathlib.Path("/proc/meminfo").read_text()
    return int(re.search(r"MemAvailable:\s+(\d+)", text)[1]) * 1024


def own_peak():
    """The most memory that this tool took, which the system counts as that of each program that
    it begins."""
    return resource.getrusage(resource.RUSAGE_SELF).ru_maxrss * 1024


def is_right_of(shape, ended, lines):
    """Whether 64 logs of this shape, with so many lines, came to what they must."""
    if shape.line is None:
        endless = 1, b"", b"epx: fault 4: log 0 line 1: TooLong\n"
        return ended.come_to() == (endless if shape.piece == b"[" else (0, NOTHING, b""))
    if lines > MOST_INSTANCES:
        return ended.come_to() == (1, b"", b"epx: fault 5: more than 1048576 instances\n")
    header = b'["executed",%d,"waiting",0,' % lines
    return (ended.status, ended.err) == (0, b"") and ended.out.startswith(header)


def size(tool, shape, bytes_each, most_lines):
    """64 logs of a shape: what comes, and the peak memory a byte of input, beside 8 MiB."""
    logs = [tool.folder / f"size{log}.jsonl" for log in range(64)]
    written = [write_log(path, shape, log, bytes_each, most_lines) for log, path in enumerate(logs)]
    total, lines = (sum(it) for it in zip(*written))
    what = f"64 logs of {shape.name}, {total // MIB} MiB, {lines} lines"
    if total * shape.limit > free_memory():
        print(
            f"       {what}: not tried, since {total * shape.limit // MIB} MiB are not free",
            flush=True,
        )
        return
    ended = tool.run(["run", *logs], seconds=600)
    a_byte = max(0, ended.peak - max(8 * MIB, own_peak())) / total
    what += (
        f": {a_byte:.1f} bytes of memory a byte (limit {shape.limit}), {ended.seconds:.1f} seconds"
    )
    tool.say(
        what,
        ended,
        is_right_of(shape, ended, lines) and a_byte <= shape.limit,
        "the right end in the limit",
    )
    for path in logs:
        path.unlink()


def sizes(tool, bytes_each):
    """Each shape in whole logs, and with as many instances as are allowed."""
    for shape in SHAPES:
        size(tool, shape, bytes_each, LONGEST_LOG)
        if shape.line:
            size(tool, shape, bytes_each, MOST_INSTANCES // 64)
