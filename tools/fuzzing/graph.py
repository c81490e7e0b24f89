"""Compares pictures of logs, whole or around an instance.

    tools/fuzz graph                        400 random maps of up to 30 instances, in 1 to 3 logs
    tools/fuzz graph --cases 5000 --seed 3
    tools/fuzz graph LOG..                  prints the picture of these logs, by the model alone

The model says which instances reach which, which share a component, how deep each lies, which wait,
and how many steps lead from one to another.
"""

from fuzzing.cases import Kind
from fuzzing.lines import committed, read_logs
from fuzzing.maps import scattered


def name(x):
    return f"{x[0]}.{x[1]}"


def within(m, x, steps):
    """What at most so many steps lead to from x, along dependencies or against them."""
    found, last = {x}, set()
    while steps and found != last:
        last, steps = found, steps - 1
        found = last.union(*map(m.dependencies, last))
        found |= {z for z in m.instances if last & m.dependencies(z)}
    return found


def box(m, x):
    """The line of a committed instance."""
    waits = "" if m.is_ready(x) else ", style=dashed"
    seq = m.instances[x].seq
    line = f'"{name(x)}" [label="{name(x)}\\ndepth {m.depth(x)}, seq {seq}"{waits}];'
    if len(m.component(x)) > 1:
        return f'  subgraph "cluster {name(m.leader(x))}" {{ {line} }}\n'
    return f"  {line}\n"


def picture(m, around=None, steps=0):
    """The picture of all instances, or of those within some steps of one."""
    missing = set().union(*map(m.dependencies, m.instances)) - m.instances.keys()
    shown = missing | m.instances.keys()
    if around is not None:
        shown &= within(m, around, steps)
    boxes = sorted(shown & m.instances.keys())
    lines = ["digraph dependencies {\n  node [shape=box];\n", *(box(m, x) for x in boxes)]
    lines += [f'  "{name(x)}" [style=dotted];\n' for x in sorted(missing & shown)]
    arrows = [(x, y) for x in boxes for y in sorted(m.dependencies(x) & shown)]
    lines += [f'  "{name(x)}" -> "{name(y)}";\n' for x, y in arrows]
    return "".join([*lines, "}\n"])


def answer_alone(paths):
    return picture(read_logs(paths))


def random_entries(rng):
    """Entries of three replicas that depend on each other or on ones that are missing."""
    names = [
        (r, i) for r in range(3) for i in range(rng.choice([0, 1, 3, 10])) if rng.random() < 0.8
    ]
    known = [*names, (rng.randrange(5), rng.randrange(20)), (7, 0)]
    for x in names:
        deps = [rng.choice(known) for _ in range(rng.choice([0, 1, 1, 2, 3]))]
        yield {"r": x[0], "i": x[1], "seq": rng.randrange(9), "deps": deps, "ops": []}


def part_of(rng):
    """The words for a part of the picture, and the part."""
    if rng.random() < 0.4:
        return [], ()
    x, steps = (rng.randrange(3), rng.randrange(11)), rng.choice([0, 1, 1, 2, 3, 2**64 - 1])
    return ["--around", name(x), "--steps", str(steps)], (x, steps)


def try_logs(case):
    entries = list(random_entries(case.rng))
    paths = case.write(scattered(case.rng, entries))
    words, part = part_of(case.rng)
    case.found["around an instance"] += len(part) > 0
    told = case.text("graph", *words, *case.plan(), *paths)
    case.expect("the picture", told, picture(committed(entries), *part))


KINDS = {"cases": Kind("maps", 400, 400, try_logs)}
