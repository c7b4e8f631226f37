"""The table of the public items of a crate, with the first sentence of the comment of each."""
import re

HEAD = re.compile(r"^( *)pub (?:(?:const|unsafe) )*(fn|struct|enum|trait|type) (\w+)")
OWNER = re.compile(r"^(?:impl|pub trait)(?:<.*?>)? (?:.* for )?(\w+)")


def sentence(comment):
    text = " ".join(comment).split("```")[0]
    return re.split(r"(?<=[.:])\s", text + " ", 1)[0].strip().rstrip(":")


def items(file):
    """Each public item of a file with its comment; a method with its type."""
    owner, comment = "", []
    for line in file.read_text(encoding="utf-8").splitlines():
        found, begun = HEAD.match(line), OWNER.match(line)
        if begun:
            owner = begun[1]
        if line.startswith("}"):
            owner = ""
        if found:
            yield (f"{owner}::{found[3]}" if found[1] and owner else found[3]), sentence(comment)
        comment = [*comment, line.strip()[3:].strip()] if line.strip().startswith("///") else comment
        if not line.strip().startswith(("///", "#[")):
            comment = []


def table(crates, crate):
    yield "| Item | What |"
    yield "|---|---|"
    for file in sorted((crates / crate).glob("src/**/*.rt")):
        for name, said in items(file):
            yield f"| `{name}` | {said} |".replace(" | |", " | |")
