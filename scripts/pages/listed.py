"""The pages of the repository, and how many words each may have."""
import re
from pathlib import Path

ROOT = Path(__file__).resolve().parent.parent.parent
# Words of a page; several pages may share a number.
BUDGETS = {
    ("README.md",): 800,
    ("docs/GUIDE.md",): 1700,
    ("docs/PATTERNS.md",): 1400,
    ("docs/REGEX.md",): 700,
    ("docs/LIMITS.md",): 900,
    ("docs/ARCHITECTURE.md",): 1300,
    ("docs/FAST-PATHS.md",): 1500,
    ("docs/FIGURES.md",): 700,
    ("docs/MEANING.md",): 2100,
    ("docs/LAYOUT.md",): 1300,
    ("docs/MACHINE.md",): 900,
    ("docs/GLOSSARY.md",): 700,
    ("docs/PROVED.md",): 700,
    ("docs/TESTED.md",): 900,
    ("docs/GATE.md",): 700,
    ("docs/DECISIONS.md",): 1500,
    ("docs/CHANGING.md",): 600,
    ("docs/DIFFERENCES.md",): 450,
    ("CONTRIBUTING.md",): 500,
    ("CHANGELOG.md",): 1200,
    ("hosts/README.md", "hosts/python/README.md", "hosts/rust/README.md", "scripts/README.md"): 2000,
}
CRATE_WORDS = 300
# README and docs together, with their tables and code: as `wc -w README.md docs/*.md` counts
TOGETHER = 20_000


def pages():
    """Every page, README first."""
    found = [ROOT / it for it in ("README.md", "CHANGELOG.md", "CONTRIBUTING.md", "SECURITY.md", "hosts/README.md", "scripts/README.md")]
    found += [*sorted((ROOT / "docs").glob("*.md")), *sorted((ROOT / "hosts").glob("*/*.md"))]
    found += sorted((ROOT / "crates").glob("*/*.md"))
    return [it for it in found if it.is_file()]


def budgets():
    """The pages that share a number of words, and the number; the README of each crate has one of its own."""
    yield from BUDGETS.items()
    for page in sorted((ROOT / "crates").glob("*/README.md")):
        yield (str(page.relative_to(ROOT)),), CRATE_WORDS


def prose(text):
    """A page without its generated tables and its blocks of code."""
    text = re.sub(r"(?ms)^<!-- table .*?^<!-- end -->$", "", text)
    return re.sub(r"(?ms)^ *```.*?^ *```$", "", text)
