"""Writes figures to results/*.csv, which `tables` prints into the pages."""
import csv
import time

from pages.figures import FIELDS

from .about import commit, machine
from .kit import ROOT


def add(name, command, figures):
    """Adds figures, each a thing, its value and the peer, to results/NAME.csv, with the date, the commit and the machine."""
    file = ROOT / f"results/{name}.csv"
    is_new = not file.exists()
    file.parent.mkdir(exist_ok=True)
    measured = [time.strftime("%Y-%m-%d"), commit(), machine(), command]
    with open(file, "a", encoding="utf-8", newline="") as lines:
        out = csv.writer(lines, lineterminator="\n")
        if is_new:
            out.writerow(FIELDS)
        out.writerows([*measured, *it] for it in figures)
    return file.relative_to(ROOT)
