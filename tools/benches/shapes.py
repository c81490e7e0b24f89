"""Logs of several shapes. The shapes `ordinary` and `colliding` differ in their Ids and keys alone:
those of the second have one hash under the library's hasher where it starts from its fixed
number."""

import json
import subprocess

from benches.log_files import line, write_logs
from command_line import TOP

WORD = 2**64 - 1
START = 0x243F6A8885A308D3
MULTIPLIER = 0x9E3779B97F4A7C15
# Ordinary numbers are so far apart that 65,536 of them span 64 bits.
APART = 281_470_681_743_360
# The second and the last eight bytes of each key.
SAME = int.from_bytes(b"-of-key-", "little")


def two_keys(number):
    return f'["get","key{number % 9973}"]', f'["add","key{number % 7919}",1]'


def window(reach):
    """Each instance depends on so many before it."""

    def lines(count):
        for number in range(count):
            deps = [(0, other) for other in range(max(0, number - reach), number)]
            yield line(0, number, deps, two_keys(number))

    return lines


def ring(count):
    """Each instance depends on the one before it, and the first on the last."""
    for number in range(count):
        yield line(0, number, [(0, (number - 1) % count)] if count > 1 else [], two_keys(number))


def one_key(count):
    """Each instance adds to one key, and depends on the one before it."""
    for number in range(count):
        deps = [(0, number - 1)] if number else []
        yield line(0, number, deps, ['["add","key",1]'])


def many_keys(count):
    """Each instance writes one of 1,000 keys, and depends on the one before it of that key."""
    for number in range(count):
        deps = [(0, number - 1000)] if number >= 1000 else []
        yield line(0, number, deps, [f'["put","key{number % 1000}",{number}]'])


def folded(a, b):
    product = (a & WORD) * (b & WORD)
    return product & WORD ^ product >> 64


def after_replica(replica):
    """What the library's hasher holds once it took in a replica."""
    return folded(START ^ (replica | replica << 8 | replica << 16), MULTIPLIER ^ 2)


def shares_slot(word):
    """Whether the instances of this word fall into one slot of a table of 65,536 names."""
    value = folded(word, MULTIPLIER ^ 16)
    return (value ^ value >> 32) & 0x1FFF == 0


def letters(number):
    """Eight letters by a number, four bits a letter, as eight bytes from the lowest."""
    pairs = (number | number << 16) & 0x0000FFFF0000FFFF
    parts = (pairs | pairs << 8) & 0x00FF00FF00FF00FF
    return (parts | parts << 4) & 0x0F0F0F0F0F0F0F0F | 0x6060606060606060


def thirds(collide):
    """Pairs of the first and the third eight bytes of a key, each byte of which is ASCII."""
    for number in range(2**32):
        first = letters(number)
        third = folded(first ^ START + 32, SAME ^ MULTIPLIER) if collide else first
        if third & 0x8080808080808080 == 0:
            yield first, third


def keyed(collide):
    """Instances of 256 replicas that depend on nothing and write a key of 32 bytes each.

    Colliding Ids undo what the hasher holds of the replica. The third part of a colliding key
    undoes what it holds of the first two.
    """

    def lines(count):
        words = (word for word in range(2**32) if not collide or shares_slot(word))
        keys = thirds(collide)
        for number, (first, third) in zip(range(count), keys):
            replica = number % 256
            word = next(words) if replica == 0 else word
            own = after_replica(replica) ^ word if collide else (number * APART) & WORD
            key = b"".join(part.to_bytes(8, "little") for part in (first, SAME, third, SAME))
            yield line(replica, own, [], [f'["put",{json.dumps(key.decode())},1]'])

    return lines


SHAPES = {
    "independent": window(0),
    "chain": window(1),
    "ring": ring,
    "one-key": one_key,
    "1000-keys": many_keys,
    "16-deps": window(16),
    "256-deps": window(256),
    "ordinary": keyed(False),
    "colliding": keyed(True),
}
# The logs of five replicas that are alike, and those of three that repeat much of each other.
FIVE_LOGS = "five-logs"
BANK = "bank"
NAMES = [*SHAPES, FIVE_LOGS, BANK]


def alike(lines, folder):
    """The paths of five logs of these lines."""
    folders = [folder / str(replica) for replica in range(5)]
    for one in folders:
        one.mkdir()
    texts = [*lines]
    return [path for one in folders for path in write_logs(texts, one)]


def logs_of(name, instances, folder):
    """The paths of logs of a shape, written into a folder."""
    if name == FIVE_LOGS:
        return alike(many_keys(instances), folder)
    if name != BANK:
        return write_logs(SHAPES[name](instances), folder)
    words = ["--instances", str(instances), "--seed", "7", "--out", folder / BANK]
    subprocess.run([TOP / "contrib/bank", *words], capture_output=True, check=True)
    return sorted(str(path) for path in (folder / BANK).glob("*.jsonl"))
