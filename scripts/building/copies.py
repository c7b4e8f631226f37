"""Copies of crates in another repository."""
import shutil

from .crates import below, listed
from .kit import ROOT

PARTS = ("src", "specs", "proofs")


def take(crate, to, parts=PARTS):
    """Copies a crate and those below it into another repository, over what is there, with their lines of crates.txt."""
    names = listed()
    crates = [*below(crate, names), crate]
    for it in crates:
        shutil.rmtree(to / "crates" / it, ignore_errors=True)
        for part in parts:
            if (ROOT / "crates" / it / part).is_dir():
                shutil.copytree(ROOT / "crates" / it / part, to / "crates" / it / part)
    file = to / "crates.txt"
    kept = [line for line in (file.read_text().splitlines() if file.exists() else ()) if line.split(":")[0].strip() not in crates]
    file.write_text("".join(f"{it}: {' '.join(names[it])}\n" for it in crates) + "".join(f"{it}\n" for it in kept))
    return crates
