"""What crates.txt says: the crates of the repository and what each names."""
from .kit import ROOT


def listed(root=ROOT):
    """What each crate of crates.txt names, in its order."""
    lines = (line.split("#")[0].partition(":") for line in (root / "crates.txt").read_text().splitlines())
    return {head.split()[0]: names.split() for head, _, names in lines if head.strip()}


def sections(root=ROOT):
    """The crates below each comment of crates.txt."""
    found, name = {}, ""
    for line in (root / "crates.txt").read_text().splitlines():
        if line.startswith("#"):
            name = line.lstrip("# ").strip()
        elif line.strip():
            found.setdefault(name, []).append(line.split(":")[0].split()[0])
    return found


def below(crate, names):
    """The crates of this repository below a crate, each once, the lowest first."""
    found = []
    for name in names[crate]:
        found += [it for it in (*below(name, names), name) if it not in found] if name in names else []
    return list(dict.fromkeys(found))


def is_library_for_c(crate, root=ROOT):
    """Whether crates.txt has the crate as a static library."""
    return any(line.startswith(f"{crate} staticlib:") for line in (root / "crates.txt").read_text().splitlines())
