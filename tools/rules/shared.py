"""No definition of specs/ has the name of another crate's."""

from definitions import definitions

FLAWS = [("crates/epx_picture/specs/PictureText.antt", "abbrev pub ids_of : ℕ")]


def find(top):
    """Definitions of specs/ that have the name of one of another crate."""
    having = {}
    for (crate, file), names in sorted(definitions(top).items()):
        for name in names:
            having.setdefault(name, {}).setdefault(crate, file)
    for name, files in sorted(having.items()):
        for crate in sorted(files)[1:]:
            page = next((top / "crates" / crate / "specs").glob(f"**/{files[crate]}.antt"))
            yield page, 1, f"{sorted(files)[0]} has a definition {name} too"
