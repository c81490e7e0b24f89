"""Logs in which uncovered pairs are hard to find or to exclude, each with what an audit says."""

from benches.log_files import line

# Every so many instances two interleaved chains depend on each other.
CROSS = 8


def put(replica, number, deps, key):
    """The line of an instance that writes a key."""
    return line(replica, number, deps, [f'["put","{key}",1]'])


def pair(first, second):
    return ["uncovered", *first, *second]


def cold_keys(count):
    """Nothing depends on anything, and two keys of all are alike."""
    first, second = count // 3, 2 * count // 3
    keys = [f"key{first if number == second else number}" for number in range(count)]
    return [put(0, n, [], key) for n, key in enumerate(keys)], pair((0, first), (0, second))


def late_free(count):
    """The same, and the two are the last ones."""
    keys = [f"key{min(number, count - 2)}" for number in range(count)]
    return [put(0, n, [], key) for n, key in enumerate(keys)], pair((0, count - 2), (0, count - 1))


def late_pair(reach):
    """Each depends on so many before it and shares its key with a neighbour.

    The last two of all are not related.
    """

    def lines(count):
        made = []
        for number in range(count):
            before = min(number, count - 2)
            deps = [(0, other) for other in range(max(0, before - reach), before)]
            made.append(put(0, number, deps, f"key{number // 2}"))
        return made, pair((0, count - 2), (0, count - 1))

    return lines


def late_hot(count):
    """A chain that writes one key, of which the last two instances are not related."""
    made = [put(0, n, [(0, min(n, count - 2) - 1)] if n else [], "key") for n in range(count)]
    return made, pair((0, count - 2), (0, count - 1))


def chains(count, last):
    """Two interleaved chains. Each writes in its second half the keys that the other one writes in
    its first half. Where `last`, the last instance of the second chain depends on nothing."""
    half = count // 2
    made = []
    for number in range(half):
        for replica in (0, 1):
            deps = [(replica, number - 1)] if number else []
            if number % CROSS == CROSS - 1:
                deps.append((1 - replica, number - 1))
            if last and replica == 1 and number == half - 1:
                deps = []
            owner = replica if number < half // 2 else 1 - replica
            made.append(put(replica, number, deps, f"key{owner}-{number % (half // 2)}"))
    return made


def far_pairs(count):
    return chains(count, False), ["covered"]


def far_gap(count):
    half = count // 2
    return chains(count, True), pair((0, half // 2 - 1), (1, half - 1))


def all_conflict(count):
    """All write one key, and nothing depends on anything."""
    return [put(0, number, [], "key") for number in range(count)], pair((0, 0), (0, 1))


SHAPES = {
    "cold-keys": cold_keys,
    "late-free": late_free,
    "late-pair": late_pair(1),
    "late-dense": late_pair(64),
    "late-hot": late_hot,
    "far-pairs": far_pairs,
    "far-gap": far_gap,
    "all-conflict": all_conflict,
}
