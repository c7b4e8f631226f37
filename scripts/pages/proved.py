"""The table of contracts: of each crate, how many of its functions have one, and the names of those that are public."""
import re

MOST_NAMES = 12
FUNCTION = re.compile(r'^( *)(pub(?:\([^)]*\))? )?(?:(?:const|unsafe|extern "C") )*fn (\w+)', re.M)


def contracts(crates, crate):
    """The public functions of a crate that have a contract, how many functions have one, and how many there are."""
    public, with_one, all_of_them = [], 0, 0
    for file in sorted((crates / crate).glob("src/**/*.rt")):
        text = file.read_text(encoding="utf-8")
        for found in FUNCTION.finditer(text):
            # a head ends where its body begins, on a line of its own if it has clauses
            head = re.match(r".*?(?:\{\n|\{\}|;\n|\n *\{\})", text[found.end() :], re.S)
            is_stated = bool(re.search(r"\bensures\b", head[0] if head else ""))
            all_of_them, with_one = all_of_them + 1, with_one + is_stated
            if is_stated and found[2] == "pub ":
                public.append(found[3])
    return list(dict.fromkeys(public)), with_one, all_of_them


def table(crates, names):
    yield "| Crate | Functions with a contract, of all | Of them public |"
    yield "|---|---|---|"
    for crate in names:
        public, with_one, all_of_them = contracts(crates, crate)
        rest = f" and {len(public) - MOST_NAMES} more" if len(public) > MOST_NAMES else ""
        yield f"| `{crate}` | {with_one} of {all_of_them} | {', '.join(f'`{it}`' for it in public[:MOST_NAMES])}{rest} |"
