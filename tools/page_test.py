"""The test of `tools/page`: what a browser shows of logs must be what epx says of them. A module,
and no tool itself."""

import functools
import json
import pathlib
import random
import re
import subprocess
import tempfile

from browser import find_browser
from command_line import TOP, counted, say
from fuzzing.cases import Tally
from fuzzing.histories import Executed, history_of, random_calls
from fuzzing.lines import text_of
from fuzzing.maps import Map
from fuzzing.streams import covered_instances
from logs import is_committed
from page_looks import try_keys, try_looks
from page_refusals import try_refusals
from page_shown import Shown

EXAMPLES = ("one", "operations", "replicas", "statuses", "unrelated", "arriving")
FOLDERS = ("replicas", "bank", "halves")
RANDOM, HISTORIES, LARGE, POSITIONS = 12, 12, 5_000, 20
MANY_KEYS = 2_000
# Opening took under a second where it was measured. A busy machine takes longer.
MOST_SECONDS = 20
EDGE = 2**63 - 1
# Instances of which all wait, each with its dependencies, and what `blockers` says of them.
BLOCKED = ((0, 0, [[6, 0]]), (0, 1, [[0, 0]]), (1, 0, [[5, 0]]), (2, 0, [[5, 0], [6, 0]]))
BLOCKERS = [["blocks", 5, 0, 1, 2], ["blocks", 6, 0, 2, 2], ["several", 1]]
# Keys that could end an element of HTML or a text, or turn what is beside them.
KEYS = ["</script><script>throw 1</script>", "<!--", "&lt;", '"', "\\", "a b", "@data@", "\0\n\t",
        "\u202eabc", "\u2028", "ключ", "鍵", "__proto__", "x" * 64, "null"]  # fmt: skip


class Case:
    """Logs with a page of them, and what epx says of them."""

    def __init__(self, program, folder, logs, history=None, skew=()):
        self.program, self.folder, self.logs, self.history = program, folder, logs, history
        self.path, self.list = folder / "page.html", folder / "list"
        self.path.unlink(missing_ok=True)
        words = ["--history", history, *skew] if history else []
        self.skew = skew
        call = [TOP / "tools/page", *words, *logs, "--out", self.path, "--program", program]
        subprocess.run(call, stderr=subprocess.DEVNULL, check=True)
        self.report = self.ask("run")
        self.order = [name_of(row) for row in self.report if row[0] == "reply"]
        self.read_graph()
        lines = [json.loads(line) for log in logs for line in log.read_bytes().split(b"\n") if line]
        self.ops = {f"{line['r']}.{line['i']}": line["ops"] for line in lines if is_committed(line)}

    def ask(self, word, *more):
        words = [self.program, word, *more, *self.logs]
        ended = subprocess.run(list(map(str, words)), capture_output=True, check=True)
        return [json.loads(line) for line in ended.stdout.splitlines()]

    def read_graph(self):
        """Reads the picture word by word: its boxes, arrows and clusters, and what has which
        style."""
        call = [self.program, "graph", *self.logs]
        text = subprocess.run(call, capture_output=True, text=True, check=True).stdout
        self.boxes, self.arrows, self.clusters = {}, set(), {}
        for line in text.splitlines()[2:-1]:
            names = re.findall(r'"(\d+\.\d+)"', line)
            if "->" in line:
                self.arrows.add(tuple(names))
                continue
            style = re.search(r"style=(\w+)", line)
            self.boxes[names[0]] = style[1] if style else "solid"
            if "subgraph" in line:
                leader = re.search(r'"cluster (\S+)"', line)[1]
                self.clusters.setdefault(leader, []).append(names[0])

    @functools.cache
    def store(self, position):
        """The store that `replay` prints after so many instances of the order."""
        listed = [name.split(".") for name in self.order[:position]]
        self.list.write_text("".join(f"[{r},{i}]\n" for r, i in listed))
        rows = self.ask("replay", self.list)
        return [[row[1], str(row[2])] for row in rows if row[0] == "store"]


def name_of(row):
    return f"{row[1]}.{row[2]}"


def shown_key(key):
    """A key as the page has it: in quotes where it is no plain word."""
    is_plain = key.replace("_", "a").isalpha() and key != "null"
    return key if is_plain else json.dumps(key)


def shown_operation(op):
    keys = op[1:3] if op[0] == "copy" else op[1:2]
    return " ".join([op[0], *map(shown_key, keys), *map(json.dumps, op[1 + len(keys) :])])


def written_keys(ops):
    """The keys that operations write, each once, in the order of the operations."""
    keys = [op[-1] if op[0] == "copy" else op[1] for op in ops
            if op[0] in ("put", "del", "add", "copy")]  # fmt: skip
    return list(dict.fromkeys(keys))


def try_graph(told, shown, case):
    """Each box in turn has the focus: boxes, arrows, texts and frames must be those of epx."""
    styles = {"executed": "solid", "waiting": "dashed", "missing": "dotted"}
    boxes = shown.each_box()
    told.expect("sets of boxes", {box["id"]: styles[box["kind"]] for box in boxes}, case.boxes)
    told.expect("orders", [box["id"] for box in boxes][: len(case.order)], case.order)
    for box in boxes:
        for word, at in ("deps", 0), ("users", 1):
            wanted = {arrow for arrow in case.arrows if arrow[at] == box["id"]}
            told.expect("sets of arrows", set(map(tuple, box[word])), wanted)
    told.expect("sets of frames", shown.frames(), {
        leader: sorted(names) for leader, names in case.clusters.items()})  # fmt: skip
    for box in boxes:
        ops = [shown_operation(op) for op in case.ops.get(box["id"], [])]
        told.expect("operations", box["all"], ops)
        short = ops if len(ops) <= 3 else [*ops[:2], f"and {len(ops) - 2} more"]
        short = short or ([] if box["kind"] == "missing" else ["no operations"])
        told.expect("operations", box["ops"], short)
    ends = {name_of(row): f"{row[3]} {json.dumps(row[4])}"
            for row in case.report if row[0] == "reply"}  # fmt: skip
    ends |= {name_of(row): f"needs {row[3]}.{row[4]}"
             for row in case.report if row[0] == "waiting"}  # fmt: skip
    told.expect("sets of replies", {box["id"]: box["end"] for box in boxes if box["id"] in ends},
                ends)  # fmt: skip


def try_list(told, shown, case):
    """The text of all instances must have the same boxes and arrows."""
    rows = shown.list_rows()
    told.expect("lists", sorted(row[1] for row in rows), sorted(case.boxes))
    split = lambda text: text.split(", ") if text else []
    for place, turn in (4, lambda pair: pair), (5, lambda pair: pair[::-1]):
        found = {turn((row[1], other)) for row in rows for other in split(row[place])}
        told.expect("lists", found, case.arrows)


def wrote_words(case, position):
    """What the page says of the last of so many instances: what it wrote, by the stores before it
    and after it."""
    end = "" if case.store(position) else " The store is empty."
    if not position:
        return f"Nothing is executed.{end}"
    name, parts = case.order[position - 1], []
    before, after = (dict(case.store(at)) for at in (position - 1, position))
    is_abort = any(row[3] == "abort" for row in case.report if name_of(row) == name)
    for key in [] if is_abort else written_keys(case.ops[name]):
        old, new = before.get(key, "absent"), after.get(key, "absent")
        parts.append(f"{shown_key(key)}: {f'{new} again' if old == new else f'{old} → {new}'}")
    return f"{name} wrote {'; '.join(parts) or 'nothing'}.{end}"


def try_stores(told, shown, case, positions):
    """The slider must show the store that `replay` prints, and mark what changed since the position
    before."""
    for position in positions:
        before = case.store(position - 1) if position else []
        wanted = case.store(position)
        changed = [pair[0] for pair in wanted if pair not in before]
        words = wrote_words(case, position)
        told.expect("stores", shown.store(position), [wanted, changed, words])


def all_positions(case, rng):
    """All positions in order, so that stores go on, and then some, so that they go back."""
    count = len(case.order)
    return [*range(count + 1), count, 0, *rng.sample(range(count + 1), min(count, 5))]


def try_case(told, shown, case, positions):
    shown.open(case.path)
    try_graph(told, shown, case)
    try_list(told, shown, case)
    try_stores(told, shown, case, positions)
    told.expect("consoles", shown.take_errors(), [])


def example_logs():
    for name in EXAMPLES:
        yield [TOP / f"examples/{name}.jsonl"]
    for name in FOLDERS:
        yield sorted((TOP / "examples" / name).glob("*.jsonl"))


def random_logs(rng, folder):
    """Random logs: covered ones with instances that are lost, and ones with any dependencies."""
    for number in range(RANDOM):
        path = folder / f"random-{number}"
        if number % 2:
            path.write_text(Map(rng, 14).text())
        else:
            instances = covered_instances(rng, rng.randrange(1, 40))
            kept = [one for one in instances if rng.random() < 0.95]
            path.write_text(text_of(kept))
        yield [path]


def edge_logs(folder):
    """Logs with keys and numbers at their limits, and logs of nothing."""
    path, empty, many = folder / "edge", folder / "empty", folder / "many"
    entries = [{"r": 255, "i": 2**64 - 1, "seq": 2**64 - 1, "deps": [[0, 2**64 - 2]],
                "ops": [["put", key, EDGE - at] for at, key in enumerate(KEYS)]},
               {"r": 0, "i": 2**64 - 2, "seq": 0, "deps": [[255, 2**64 - 1]],
                "ops": [["copy", KEYS[0], KEYS[1]], ["del", KEYS[2]], ["get", KEYS[0]],
                        ["add", KEYS[4], -EDGE], ["is", "none", None]]},
               {"r": 7, "i": 0, "seq": 0, "deps": [], "ops": []}]  # fmt: skip
    path.write_text("".join(json.dumps(entry) + "\n" for entry in entries))
    empty.write_text("")
    # as many keys as a line may have, each of 64 bytes that JSON writes as six each
    wide = [["put", chr(1) * 62 + f"{at:02}", at] for at in range(64)]
    lines = [{"r": 1, "i": at, "seq": at, "deps": [], "ops": wide} for at in range(30)]
    many.write_text("".join(json.dumps(line) + "\n" for line in lines))
    yield from ([path], [empty], [many], [path, empty, path])


def try_history(told, shown, case):
    """The page of a history must have what `linear` finds, each late call with its arrow."""
    shown.open(case.path)
    rows = [row for row in case.ask("linear", *case.skew, case.history) if row[0] != "linear"]
    late = {(f"{row[1]}.{row[2]}", f"{row[3]}.{row[4]}") for row in rows if row[0] == "late"}
    told.expect("late arrows", shown.late_arrows(), late)
    wanted = {}
    for row in rows:
        if name_of(row) in case.boxes:
            wanted.setdefault(name_of(row), []).append(
                {"reply": "other reply"}.get(row[0], row[0]))  # fmt: skip
    told.expect("marked boxes", shown.marked(), wanted)
    told.expect("items of findings", shown.findings(), [name_of(row) for row in rows])
    told.expect("consoles", shown.take_errors(), [])


def try_histories(told, shown, program, rng, folder):
    clients = TOP / "examples/clients"
    try_history(told, shown, Case(program, folder, [clients / "log.jsonl"],
                                  clients / "seen.history"))  # fmt: skip
    for _ in range(HISTORIES):
        given, log, history = Map(rng, 10), folder / "log", folder / "history"
        done = Executed(given.map)
        others = sorted(given.entries.keys() - {*given.order}) + [(7, 0), (9, 9)]
        log.write_text(given.text())
        history.write_text(history_of(rng, random_calls(rng, done, others)))
        skew = rng.choice([[], ["--skew", "1"]])
        try_history(told, shown, Case(program, folder, [log], history, skew))


def try_blockers(told, shown, program, folder):
    """What to recover first must be what `blockers` says, the one that blocks most first. A program
    that has no such subcommand gets one here, which says it of this log."""
    path = folder / "blocked"
    path.write_text("".join(
        json.dumps({"r": r, "i": i, "seq": 0, "deps": deps, "ops": []}) + "\n"
        for r, i, deps in BLOCKED))  # fmt: skip
    if not has_blockers(program):
        shown.open(Case(program, folder, [path]).path)
        told.expect("pages without blockers", shown.blockers(), None)
        program = with_blockers(program, folder / "epx")
    case = Case(program, folder, [path])
    told.expect("answers of blockers", case.ask("blockers"), BLOCKERS)
    shown.open(case.path)
    rows = sorted(BLOCKERS[:-1], key=lambda row: -row[3])
    wanted = [[name_of(row), f"blocks {row[3]}, named by {row[4]}"] for row in rows]
    told.expect("pages with blockers", shown.blockers(), wanted)


def has_blockers(program):
    call = [program, "help", "blockers"]
    return subprocess.run(call, capture_output=True, check=False).returncode == 0


def with_blockers(program, path):
    """A program that has the subcommand, with one answer."""
    lines = "\n".join(map(json.dumps, BLOCKERS))
    path.write_text(f"#!/bin/sh\ncase \"$1 $2\" in 'help blockers') exit 0;; blockers*)\n"
                    f"echo '{lines}'; exit 0;; esac\nexec '{program}' \"$@\"\n")  # fmt: skip
    path.chmod(0o755)
    return str(path)


def try_long_store(told, shown, program, folder):
    """A store of many keys, of which the page draws those that are near what is visible."""
    path = folder / "keys"
    keys = [f"k{at:04}" for at in range(MANY_KEYS)]
    ops = [[["put", key, at] for at, key in enumerate(keys[begin : begin + 64], begin)]
           for begin in range(0, MANY_KEYS, 64)]  # fmt: skip
    lines = [{"r": 0, "i": at, "seq": at, "deps": [], "ops": put} for at, put in enumerate(ops)]
    path.write_text("".join(json.dumps(line) + "\n" for line in lines))
    case = Case(program, folder, [path])
    shown.open(case.path)
    rows, most = shown.long_store()
    told.expect("long stores", [rows, most < MANY_KEYS], [case.store(len(case.order)), True])


def try_large(told, shown, program, rng, folder):
    """Opens a page of many instances, and returns the seconds."""
    words = ["--instances", str(LARGE), "--seed", "7", "--out", folder / "bank"]
    subprocess.run([TOP / "contrib/bank", *words], stderr=subprocess.DEVNULL,
                   stdout=subprocess.DEVNULL, check=True)  # fmt: skip
    case = Case(program, folder, sorted((folder / "bank").glob("*.jsonl")))
    seconds = [shown.open(case.path) for _ in range(3)]
    told.expect("large pages", min(seconds) < MOST_SECONDS, True)
    told.expect("few elements", shown.count_boxes() < 200, True)
    try_list(told, shown, case)
    for share in (0, 0.3, 0.999, 1):
        for level in range(5):
            told.expect("scrolls", shown.is_whole(level, share), True)
    told.expect("few elements", shown.count_boxes() < 200, True)
    positions = [0, len(case.order), *rng.sample(range(len(case.order)), POSITIONS)]
    try_stores(told, shown, case, positions)
    for name in (case.order[0], case.order[-1], case.order[len(case.order) // 2], *case.boxes):
        if name in (case.order[0], case.order[-1]) or rng.random() < 0.004:
            arrows = shown.focus(name)
            told.expect("sets of arrows", arrows, {it for it in case.arrows if name in it})
    told.expect("consoles", shown.take_errors(), [])
    return sorted(seconds)[1]


def try_pages(told, shown, program, rng, folder):
    """Opens pages of all kinds. Returns the seconds that the large one took."""
    sets = [*example_logs(), *random_logs(rng, folder), *edge_logs(folder)]
    for logs in counted("sets of logs, each with a page", sets):
        case = Case(program, folder, logs)
        try_case(told, shown, case, all_positions(case, rng))
    say("histories of clients")
    try_histories(told, shown, program, rng, folder)
    try_blockers(told, shown, program, folder)
    try_long_store(told, shown, program, folder)
    say("keys, colours and narrow windows")
    replicas = Case(program, folder, sorted((TOP / "examples/replicas").glob("*.jsonl")))
    try_keys(told, shown, replicas.path)
    try_looks(told, shown, replicas.path)
    clients = TOP / "examples/clients"
    late = Case(program, folder, [clients / "log.jsonl"], clients / "seen.history")
    try_looks(told, shown, late.path)
    say(f"a page of {LARGE:,} instances")
    return try_large(told, shown, program, rng, folder)


def test(program, seed):
    """Tries pages in a browser, where one is installed, and what must be refused."""
    told, rng, name = Tally(), random.Random(seed), find_browser()
    more = "the pages skipped, since no Chromium is installed"
    with tempfile.TemporaryDirectory(prefix="epx-page-test-") as room:
        folder = pathlib.Path(room)
        try_refusals(told, program, folder / "refusals")
        if name:
            with Shown(name) as shown:
                seconds = try_pages(told, shown, program, rng, folder)
            more = f"{LARGE:,} instances open in {seconds:.1f} s"
    print(f"tools/page: seed {seed}: {told.text()}; {more}")
    return 1 if told.wrong else 0
