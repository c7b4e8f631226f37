"""The functions that tell the variants of an enum apart, by the lines of the sources as `rt fmt` lays them out."""
import re
from pathlib import Path

CRATES = Path(__file__).resolve().parent.parent.parent / "crates"
HEAD = re.compile(r"( *)(?:pub(?:\(.*?\))? )?(?:(?:const|unsafe|extern \"C\") )*fn (\w+)")
# what is in the brackets of a `matches!`, itself with brackets
TEST = re.compile(r"matches!\(((?:[^()]|\((?:[^()]|\([^()]*\))*\))*)\)")


def functions(file):
    """Gives the name and the lines of each function of a file."""
    name, lines, indent = "", [], ""
    for line in file.read_text(encoding="utf-8").splitlines():
        head = HEAD.match(line)
        if head:
            indent, name, lines = head[1], head[2], []
        lines.append(line)
        if name and line == indent + "}":
            yield name, lines
            name = ""


def arms(enum, lines):
    """Gives the indent and the pattern of each arm that begins with a variant."""
    for place, line in enumerate(lines):
        begun = re.match(rf"( *)[\w(&|]*{enum}::", line)
        if not begun:
            continue
        # a pattern with fields in lines of their own ends in the next line of its indent
        is_open = line.endswith("{") and "=>" not in line
        ends = [it for it in lines[place + 1 :] if re.match(rf"{begun[1]}\S", it)] if is_open else [line]
        if ends and "=>" in ends[0]:
            yield begun[1], line.partition("=>")[0]


def told_apart(enum, lines):
    """The variants that a function matches on, and whether others pass silently."""
    text, found = "\n".join(lines), [*arms(enum, lines)]
    tests = TEST.findall(text) + re.findall(rf"\blet [\w(&]*{enum}::\w+", text)
    names = re.findall(rf"\b{enum}::(\w+)", " ".join([*tests, *(pattern for _, pattern in found)]))
    last = [it for indent, _ in found for it in lines if re.match(rf"{indent}(?:_|[a-z]\w*) =>", it)]
    return list(dict.fromkeys(names)), bool(last or not found)


def named(page):
    """The pairs of file and function that a table of a page names."""
    pairs, files = set(), []
    for line in page.read_text(encoding="utf-8").splitlines():
        words = re.findall(r"`([\w/.]+)`", line.partition("|")[2])
        files = [it for it in words if it.endswith(".rt")] or files
        pairs |= {(file, word) for file in files for word in words}
    return pairs


def tellers(enum):
    """Gives the file, the name, the variants, and whether others pass silently, of each function that matches on them."""
    for file in sorted(CRATES.glob("*/src/**/*.rt")):
        place = str(file.relative_to(CRATES)).replace("/src/", "/")
        for name, lines in functions(file):
            variants, is_silent = told_apart(enum, lines)
            if variants:
                yield place, name, variants, is_silent


def table(enum):
    """The functions by file, each with `(forced)` if the compiler asks it for a new variant."""
    yield "| File | Functions |"
    yield "|---|---|"
    by_file = {}
    for place, name, _, is_silent in tellers(enum):
        by_file.setdefault(place, []).append(f"`{name}`" + ("" if is_silent else " (forced)"))
    for place, names in by_file.items():
        yield f"| `{place}` | {', '.join(dict.fromkeys(names))} |"
