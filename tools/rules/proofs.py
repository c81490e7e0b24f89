"""No folder of proofs/ has over 40 files, and files of lemmas are named after them."""

import re

# The most files that a folder of proofs has, the node file of a module aside.
MANY = 40

FLAWS = [("crates/epx_ranking/proofs/Moving.antt", "pub Moved-far : ℕ")]


def find(top):
    """Folders of proofs with too many files, and lemmas in files that are not named after
    them."""
    for folder in sorted(top.glob("crates/*/proofs/**/")):
        files = [path for path in folder.glob("*.antt") if path.stem != "Lib"]
        if len(files) > MANY:
            yield folder, 1, f"{len(files)} files"
        made = {"Answers", "Invariants", "Proof", "Given", "Goals"}
        for path in files:
            text = path.read_text()
            is_lemma = re.search(r"^(?:pub )?module _|^pub [^\s:]+ :", text, re.M)
            if (
                is_lemma
                and path.stem not in made
                and not path.stem.endswith(("Lemmas", "Examples"))
            ):
                yield path, 1, "a file of lemmas is named after them"
