"""Where the tables of rows stand, and the programs that read them."""

import re
from pathlib import Path

ROOT = Path(__file__).resolve().parent.parent.parent
TABLES = re.compile(r"^(?:const|static) TABLES: \[&str; \d+\] = \[(.*?)\];", re.M | re.S)


def table(name):
    """The table of this name, in the folder data of a crate or below it."""
    found = [*ROOT.glob(f"crates/*/data/**/{name}")]
    if len(found) != 1:
        raise SystemExit(f"there are {len(found)} tables of the name {name} in crates/*/data")
    return found[0]


def programs_of_rows():
    """The crates that print tables, each with its tables in order, as files in its folder data."""
    found = {}
    for file in sorted(ROOT.glob("crates/*/src/main.rt")):
        tables = TABLES.search(file.read_text(encoding="utf-8"))
        if tables:
            crate = file.parent.parent
            found[crate] = [crate / "data" / name for name in re.findall(r'"([\w/]+)"', tables[1])]
    return found
