"""Stubs of crates: sources without bodies, and definitions and lemmas without the proofs of functions.

What a crate promises stands in a stub as in the crate, so that others can be checked over it before it is proved.
"""
import hashlib
import re
import shutil

from .crates import below
from .kit import ROOT

PROOFS_OF_FUNCTIONS = {"Answers.antt", "Invariants.antt", "Proof.antt", "Goals.antt"}
TOKEN = re.compile(r"""//[^\n]*|/\*.*?\*/|b?"(?:[^"\\]|\\.)*"|b?'(?:[^'\\]|\\.[^']*)'|[A-Za-z_][A-Za-z0-9_]*|\s+|.""", re.S)
RAW = re.compile(r'r(#*)".*?"\1', re.S)
CYCLE = re.compile(
    r"#\[cycle\([a-z_]+\)\][ \t]*\n"
    r"(?=(?:[ \t]*(?:///[^\n]*|#\[[^\]]*\])\n)*[ \t]*(?:pub(?:\([a-z]+\))? )?(?:const )?(?:unsafe )?fn )"
)
MEASURE = re.compile(r"expected a measure[^\n]*?[ `'](/\S+)/Invariants\.antt")


def tokens(text):
    at = 0
    while at < len(text):
        found = RAW.match(text, at) or TOKEN.match(text, at)
        yield found[0]
        at = found.end()


def closing(words, at):
    """Where the bracket closes that opens here."""
    depth = 0
    for here in range(at, len(words)):
        depth += {"{": 1, "}": -1}.get(words[here], 0)
        if not depth:
            return here
    raise ValueError("a bracket is not closed")


def is_of_clause(before):
    """Whether a bracket behind these words, the last first, holds a clause."""
    named = before[1:] if before and re.match(r"\w", before[0]) and before[0] not in ("requires", "ensures") else before
    named = named[1:] if named[:1] == ["*"] else named
    return named[:1] in (["requires"], ["ensures"]) or (before[:1] == [":"] and before[2:3] == ["ghost"])


def body_of(words, at):
    """The first and the last word of the body of a function that begins here, if it has one, and where it ends."""
    here, depth = at, 0
    while here < len(words):
        word = words[here]
        depth += {"(": 1, "[": 1, ")": -1, "]": -1}.get(word, 0)
        if word == ";" and not depth:
            return None, here
        if word == "{" and not depth:
            end = closing(words, here)
            before = [it for it in words[max(at, here - 12):here] if not it.isspace() and not it.startswith("//")]
            if not is_of_clause(before[::-1][:4]):
                return (here, end), end
            here = end
        here += 1
    return None, len(words)


def without_bodies(text):
    words, written, at = list(tokens(CYCLE.sub("\n", text))), [], 0
    while at < len(words):
        body = None
        if words[at] == "fn" and re.match(r"[A-Za-z_]", "".join(words[at + 2:at + 3])):
            body, end = body_of(words, at)
        if body:
            written += [*words[at:body[0]], "{ loop {} }"]
            at = end
        else:
            written.append(words[at])
        at += 1
    return "".join(written)


def files_of(crate, root):
    folder = root / "crates" / crate
    return sorted(it for part in ("src", "specs", "proofs") for it in (folder / part).rglob("*") if it.is_file())


def digest(crate, names, root=ROOT, known=None):
    """What a crate and those below it hold, as a sum."""
    known = {} if known is None else known
    if crate not in known:
        of = hashlib.sha256()
        for file in files_of(crate, root):
            of.update(f"{file.relative_to(root / 'crates' / crate)}\0".encode() + file.read_bytes())
        for name in names[crate]:
            of.update((digest(name, names, root, known) if name in names else name).encode())
        known[crate] = of.hexdigest()[:20]
    return known[crate]


def proved_libraries(crate, names, checkouts, root=ROOT):
    """The proved library of each crate below this one, where a checkout with the same files has it."""
    ours, found = {}, {}
    for checkout in checkouts:
        theirs = {}
        for name in below(crate, names):
            library = checkout / f"crates/{name}/out/rlib"
            if (library / f"{name}.rlib").exists() and digest(name, names, root, ours) == digest(name, names, checkout, theirs):
                found.setdefault(name, library)
    return found


def make_stub(crate, into, root=ROOT):
    """Writes the stub of a crate, and returns its root file."""
    base, main = root / "crates" / crate, into / "src/lib.rt"
    if not main.exists():
        for file in files_of(crate, root):
            of_function = file.name in PROOFS_OF_FUNCTIONS and file.is_relative_to(base / "proofs")
            if of_function and "-clone" not in file.parent.name:
                continue
            to = into / file.relative_to(base)
            to.parent.mkdir(parents=True, exist_ok=True)
            if file.suffix == ".rt":
                to.write_text(without_bodies(file.read_text()))
            else:
                shutil.copy(file, to)
    return main


def give_measures(said, stubs):
    """Leaves open the proof of each function of a stub for which a measure is missed; whether there was one."""
    missed = [(crate, main, place) for place in set(MEASURE.findall(said)) for crate, main in stubs.items()
              if place.startswith(str(main.parent.parent))]
    for crate, main, place in missed:
        folder = main.parent.parent / place[len(str(main.parent.parent)) + 1:]
        folder.mkdir(parents=True, exist_ok=True)
        module = ".".join(("Rattle", crate, *folder.relative_to(main.parent.parent).parts))
        name = folder.name
        (folder / "Proof.antt").write_text(f"use {module}.Statement.{{statement}}\n\npub {name}_spec : {{M : Type 1}} → statement M\n{name}_spec = ?\n")
    return bool(missed)
