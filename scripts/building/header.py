"""What programs that were compiled against fancy.h rely on: the calls, the layout of structs, and the numbers of names."""
import re

SIZES = {"size_t": 8, "uintptr_t": 8, "uint64_t": 8, "uint32_t": 4, "int": 4, "bool": 1, "char": 1}
POINTER = 8


class Unknown(Exception):
    """The header has something that this reader does not know."""


def without_comments(text):
    return re.sub(r"/\*.*?\*/", " ", text, flags=re.S)


def fields(body):
    """The type, name and count of each field of a struct."""
    for line in filter(str.strip, body.split(";")):
        found = re.fullmatch(r"\s*((?:const )?(?:struct )?\w+)\s*(\**)(\w+)\s*(?:\[(\d+)\])?\s*", line)
        if not found:
            raise Unknown(f"a field that cannot be read: {line.strip()}")
        yield (found[1] + found[2]).strip(), found[3], int(found[4] or 1)


def size_and_alignment(kind, layouts):
    if kind.endswith("*"):
        return POINTER, POINTER
    name = kind.replace("const ", "").replace("struct ", "")
    if name in layouts:
        return layouts[name][:2]
    if name not in SIZES:
        raise Unknown(f"a type that cannot be read: {kind}")
    return SIZES[name], SIZES[name]


def layout(body, layouts):
    """The size and alignment of a struct on x86-64, and its fields with their offsets and sizes."""
    at, most, found = 0, 1, []
    for kind, name, count in fields(body):
        size, alignment = size_and_alignment(kind, layouts)
        at += -at % alignment
        found.append((name, at, size * count))
        at, most = at + size * count, max(most, alignment)
    return at + -at % most, most, found


def structs(text):
    layouts = {}
    for name, body in re.findall(r"^struct (\w+) \{(.*?)^\};", text, re.S | re.M):
        layouts[name] = layout(body, layouts)
    return layouts


def calls(text):
    """The name and the types of each call."""
    for result, name, parameters in re.findall(r"^((?:struct )?\w+ \**)(fancy_\w+)\(([^)]*)\);", text, re.M):
        kinds = [re.sub(r"\b\w+$", "", " ".join(it.split())).strip() or it.strip() for it in parameters.split(",")]
        yield name, f"{result.strip()} ({', '.join(kinds)})"


def codes(text):
    for body in re.findall(r"^enum \w+ \{(.*?)^\};", text, re.S | re.M):
        yield from re.findall(r"(\w+) = (\d+)", body)


def abi(header):
    """The lines of what programs rely on."""
    text = without_comments(header)
    yield from (f"call {name} {kind}" for name, kind in sorted(calls(text)))
    for name, (size, alignment, found) in sorted(structs(text).items()):
        yield f"struct {name} {size} bytes, alignment {alignment}"
        yield from (f"field {name}.{field} at {at}, {length} bytes" for field, at, length in found)
    yield from (f"code {name} {number}" for name, number in codes(text))
