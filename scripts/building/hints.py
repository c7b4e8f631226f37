"""The inline hints of the sources, which the module of `rt try` lacks."""
import re
from collections import defaultdict, namedtuple

# A function of a source file: its module, what LLVM's module may call its receiver, the likeliest first, and its hints.
Function = namedtuple("Function", "module receivers hints")
NO_RECEIVER = ("",)
HINT = re.compile(r"#\[(inline\(always\)|inline\(never\)|inline|cold)\]")
ATTRIBUTES = {"inline(always)": "alwaysinline", "inline(never)": "noinline", "inline": "inlinehint", "cold": "cold"}


def outside_brackets(text):
    """Gives each place of a text that no bracket is around, and the end of the text."""
    depth = 0
    for place, character in enumerate(text):
        depth -= character in "])" or (character == ">" and text[place - 1] != "-")
        if depth == 0:
            yield place
        depth += character in "<[("
    yield len(text)


def without_arguments(text):
    """A path without what stands between `<` and `>`, and without the brackets."""
    return "".join(text[place : place + 1] for place in outside_brackets(text) if text[place : place + 1] not in "<>")


def short_name(path):
    """The name of a type or trait as symbols have it: `Vec` of `vec::Vec<T>`, `Ref` of `&T`, `RefStr` of `&str`, `slice` of `[T]`."""
    path = re.sub(r"'\w+ ?|\bmut |\bdyn ", "", path.strip())
    if path.startswith("&"):
        inner = short_name(path[1:])
        return "Ref" if len(inner) == 1 else "Ref" + inner
    if path.startswith("["):
        return "slice"
    return (re.findall(r"\w+", without_arguments(path)) or [""])[-1]


def receivers(head):
    """What symbols may call the receiver of an `impl` with this head: its type, before it the type with the trait."""
    head = re.sub(r"\s+", " ", head).split(" where ")[0].strip(" {")
    head = re.sub(r"^(unsafe )?impl", "", head).strip()
    if head.startswith("<"):
        head = head[[*outside_brackets(head)][1] + 1 :].strip()
    of_trait = [place for place in outside_brackets(head) if head.startswith(" for ", place)]
    if not of_trait:
        return (short_name(head).lower(),)
    trait, kind = head[: of_trait[0]], short_name(head[of_trait[0] + 5 :])
    both = kind + short_name(trait)
    arguments = "".join(re.findall(r"\w+", trait.partition("<")[2]))
    return tuple(it.lower() for it in (both + arguments, both, kind))


def as_large(hints):
    """The hints that the kit leaves of a function that would grow very large."""
    return {"inline" if it == "inline(always)" else it for it in hints}


def functions_of(file, module):
    """Gives each function of a source file, which is laid out as `rt fmt` does it, with its name."""
    receiver, hints, head = NO_RECEIVER, set(), ""
    for line in file.read_text(encoding="utf-8", errors="replace").splitlines():
        code = line.strip()
        if code.startswith("//"):
            continue
        if head or re.match(r"(unsafe )?impl\b", line):
            head += " " + code
            if code.endswith(("{", "}")) or code == "where":
                receiver, head = receivers(head), ""
            continue
        trait = re.match(r"(?:pub(?:\(.*?\))? )?(?:unsafe )?trait (\w+)", line)
        if trait:
            receiver = (trait[1].lower(),)
        if line.startswith("}"):
            receiver = NO_RECEIVER
        hints.update(HINT.findall(code))
        function = re.search(r"\bfn (\w+)", code)
        if function:
            yield function[1], Function(module, receiver, frozenset(hints))
        if code and not code.startswith("#["):
            hints = set()


def functions_below(crates, large):
    """All functions of the crates in these folders, by crate and name. Those of the names in `large` grow very large."""
    found = defaultdict(list)
    for crate in crates:
        for file in crate.glob("src/**/*.rt"):
            parts = file.relative_to(crate / "src").with_suffix("").parts
            module = "::".join(parts[:-1] if parts[-1] in ("lib", "main", "mod") else parts)
            for name, function in functions_of(file, module):
                if name in large:
                    function = function._replace(hints=frozenset(as_large(function.hints)))
                found[crate.name, name].append(function)
    return found


def unlikeness(function, module, receiver):
    """How badly a function fits a symbol, 0 the best; None where it is another."""
    if function.receivers == NO_RECEIVER:
        return 0 if function.module == "::".join(filter(None, (module, receiver))) else None
    name = re.sub(r"\W.*", "", receiver).lower()
    is_own = len(function.receivers) == 1
    if name in function.receivers:
        if function.module == module:
            return 1 + function.receivers.index(name)
        # a type's own method is named by where the type stands, and not by where the method does
        return (4 if function.module.startswith(module) else 5) if is_own else None
    if function.module != module:
        return None
    return 7 if is_own or not name.startswith(function.receivers[1]) else 6


def hints_of(symbol, functions):
    """The hints of the function that a symbol names; of several that fit alike, those that all of them have."""
    crate, *path = without_arguments(symbol.replace("::<", "<")).split("::")
    name = path.pop() if path else ""
    receiver = path.pop() if path else ""
    fits = [(unlikeness(it, "::".join(path), receiver), it.hints) for it in functions.get((crate, name), [])]
    best = min((fit for fit, _ in fits if fit is not None), default=None)
    alike = [hints for fit, hints in fits if fit == best and fit is not None]
    return frozenset.intersection(*alike) if alike else frozenset()
