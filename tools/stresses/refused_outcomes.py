"""How a run with a refused allocation ended: `well`, out of `memory`, or `other`."""

from stresses.lines import CAN_NOT_WRITE, OUT_OF_MEMORY

# What a test says where memory ran out: values of the error types, and the words of the tests'
# own errors.
MEMORY_WORDS = ("out of memory", "Memory", "AllocError", "AllocFailed")


def outcome_of_test(ended):
    """How a run of a test ended: `well`, `memory` or `other`."""
    if ended.status == 0 and ended.out.endswith(b"test result: ok\n"):
        return "well"
    first = ended.err.decode(errors="replace").partition("\n")[0]
    if (
        ended.status == 101
        and first.startswith("error: ")
        and any(it in first for it in MEMORY_WORDS)
    ):
        return "memory"
    return "other"


def outcome_of_program(wanted, ended):
    """The same of the program, whose whole answer is known."""
    if (ended.status, ended.out, ended.err) == (0, wanted, b""):
        return "well"
    if (ended.status, ended.out, ended.err) == (3, b"", OUT_OF_MEMORY):
        return "memory"
    return "other"


def outcome_of_script(case, ended):
    """The same of a worked case. Where memory ran out it found the line of fault 1, or a
    beginning of its text and the line of fault 8, since its sink in memory could not grow, or the
    script was not read."""
    if (ended.status, ended.out, ended.err) == (0, case.wanted, b""):
        return "well"
    first, _, found = ended.out.partition(b"\n")[2].partition(b"\n")
    if ended.status == 0 and b" DIFFERS " in first:
        part = found.removesuffix(CAN_NOT_WRITE)
        text = case.script.split("----\n")[1].encode()
        is_part = part != found and text.startswith(part)
        return "memory" if found == OUT_OF_MEMORY or is_part else "other"
    if ended.status == 0 and first == b"the script can not be read":
        return "memory"
    is_error = any(it.encode() in ended.err for it in MEMORY_WORDS)
    return "memory" if ended.status == 1 and is_error else "other"


def outcome(case, ended):
    """The same of any case. Out of memory where none was refused is no good end."""
    if case.script:
        how = outcome_of_script(case, ended)
    elif case.wanted is not None:
        how = outcome_of_program(case.wanted, ended)
    else:
        how = outcome_of_test(ended)
    return "other" if how == "memory" and not ended.is_refused else how
