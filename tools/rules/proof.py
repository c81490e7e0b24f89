"""The boxes and the arrows of docs/proof.dot are those of the calls in the sources."""

import re

from calls import Calls
from drawings import arrows_between, arrows_of, boxes_of, wrong_arrows

FLAWS = [("crates/epx_devices/src/transfer.rt", "fn write_out() { epx_txn::eval(); }")]


def contract_of(top, one):
    """The public function as its source has it, up to its body, if it is public."""
    path = top / "crates" / one.place[0] / "src" / ("/".join(one.place[1:]) + ".rt")
    form = rf"^ *pub (?:const )?fn {one.name}\b.*?^ *\{{"
    return "".join(re.findall(form, path.read_text(), re.M | re.S))


def find(top):
    """Boxes and arrows of docs/proof.dot that are not those of the sources. There an arrow leads
    from a public call to one that its body makes."""
    page, calls = top / "docs/proof.dot", Calls(top)
    known = {
        (one.place[0], f"{one.type}::{one.name}" if one.type else one.name): one
        for one in calls.bodies
    }
    names = {}
    for box, label in boxes_of(page.read_text()).items():
        name, _, rest = label.partition(": ")
        crate, *words = rest.rpartition("(")[2].rstrip(")").split(", ")
        one = known.get((crate, name))
        contract = contract_of(top, one) if one else ""
        if not contract:
            yield page, 1, f"{crate} has no public call {name}"
        for word in words if contract else []:
            if not re.search(rf"\b{word}\b", contract):
                yield page, 1, f"the contract of {name} has no {word}"
        names[one] = box
    arrows = arrows_between(set(names) - {None}, calls.calls_of)
    wanted = {(names[start], names[end]) for start, end in arrows}
    yield from wrong_arrows(page, arrows_of(page.read_text()), wanted)
