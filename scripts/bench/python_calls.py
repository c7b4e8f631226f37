"""Programs that run with `re` and with `fancy` alike, for compare_calls: each is a name, and what runs it with a module.

Run by valgrind with the file of `marks.c`: it counts the instructions of each program, and writes a dump for each.
"""
import ctypes
import importlib
import sys

LINE = "2026-11-30 15:11:18 server[1234]: GET /index.html?user=anna&id=42 200 1532 'Mozilla/5.0'"
LINES = LINE * 100
PROSE = "Ärger über 3 Äpfel, déjà vu; and one word more, said twice twice. " * 100
SOURCE = "def f(x, y):\n    return x * 42 + y / 'abc' - g(x, [1, 2, 3])  # a comment\n" * 20
TOKENS = (
    r"(?P<num>\d+)|(?P<id>[A-Za-z_]\w*)|(?P<op>[-+*/=<>!]=?|[()\[\]{},;:.])|(?P<ws>\s+)|(?P<str>'[^']*')|(?P<note>#.*)|(?P<other>.)"
)
NESTED = "x = f(1, g(2, 3), [4, 5])\n" * 100


def one_by_one(pattern, text):
    """The tokens of a text, by a match at each place."""
    match, at, tokens = pattern.match, 0, []
    found = match(text, at)
    while found:
        tokens.append((found.lastgroup, found.group()))
        at = found.end()
        found = match(text, at)
    return tokens


# the kind of a program, its name, its pattern, what it does with the pattern, and how often it is run
PROGRAMS = [
    ("call", "search, found", r"\d+", lambda p: p.search(LINE), 300),
    ("call", "search, found further on", r"(\w+)=(\w+)", lambda p: p.search(LINE), 300),
    ("call", "search, none", "nothing", lambda p: p.search(LINE), 300),
    ("call", "search in 4 letters, none", r"\d", lambda p: p.search("abcd"), 300),
    ("call", "search and a group", r"id=(\d+)", lambda p: p.search(LINE).group(1), 300),
    ("call", "search and a span", r"GET (\S+)", lambda p: p.search(LINE).span(1), 300),
    ("call", "search, not ASCII", "vu", lambda p: p.search(PROSE), 300),
    ("call", "search and a span, not ASCII", "vu", lambda p: p.search(PROSE).span(), 300),
    ("call", "match, found", r"\d+-\d+", lambda p: p.match(LINE), 300),
    ("call", "match, none", r"[a-z]+", lambda p: p.match(LINE), 300),
    ("call", "match and groups", r"(\d+)-(\d+)-(\d+)", lambda p: p.match(LINE).groups(), 300),
    ("call", "fullmatch", r"[a-z]+\d*", lambda p: p.fullmatch("abc123"), 300),
    ("list", "split of 3", r"[,;] ?", lambda p: p.split("one, two;three"), 300),
    ("list", "split of 600", r"[,;.] ?", lambda p: p.split(PROSE), 10),
    ("list", "split of 1,500", r"[ /.:?&=-]+", lambda p: p.split(LINES), 10),
    ("list", "findall of 11", r"\w+", lambda p: p.findall(LINE), 100),
    ("list", "findall of 1,900", r"\w+", lambda p: p.findall(LINES), 5),
    ("list", "findall of 1,300, not ASCII", r"\w+", lambda p: p.findall(PROSE), 5),
    ("list", "findall of pairs", r"(\w+)=(\w+)", lambda p: p.findall(LINES), 5),
    ("list", "finditer and spans", r"\w+", lambda p: [it.span() for it in p.finditer(LINES)], 5),
    ("list", "sub by a text", r"\d+", lambda p: p.sub("#", LINE), 100),
    ("list", "sub by a template", r"(\w+)=(\w+)", lambda p: p.sub(r"\2=\1", LINE), 100),
    ("list", "sub by a function", r"\d+", lambda p: p.sub(lambda it: it[0] + "!", LINE), 100),
    ("list", "sub of 1,000", r"\d+", lambda p: p.sub("#", LINES), 5),
    ("list", "sub of 1,300, not ASCII", r"\w+", lambda p: p.sub("x", PROSE), 5),
    ("tokenizer", "finditer", TOKENS, lambda p: [(it.lastgroup, it.group()) for it in p.finditer(SOURCE)], 5),
    ("tokenizer", "match by match", TOKENS, lambda p: one_by_one(p, SOURCE), 5),
    ("tokenizer", "groups", r"\s*(?:(\d+)|(\w+)|(.))", lambda p: p.findall(SOURCE), 5),
    ("hard", "a word twice", r"\b(\w+) \1\b", lambda p: p.findall(PROSE), 2),
    ("hard", "none at the end of each line", r"(?m)^.*;$", lambda p: p.findall(NESTED), 2),
    ("hard", "words before a sign that is not there", r"[\w.]+@[\w.]+", lambda p: p.findall(LINES), 2),
    ("hard", "any two of a list, apart", r"(?:user|Mozilla|server).{0,60}(?:200|404|1532)", lambda p: p.findall(LINES), 2),
    ("hard", "branches in a loop", r"(?:[a-z]|[a-z]\d)+;", lambda p: p.findall(SOURCE), 2),
    ("hard", "a look-ahead at each place", r"(?=.*Mozilla)\d{4}", lambda p: p.findall(LINE * 10), 2),
]


def main():
    module, marks = importlib.import_module(sys.argv[1]), ctypes.CDLL(sys.argv[2])
    nothing = ("base", "nothing", "a", lambda p: p, 300)
    for kind, name, pattern, run, times in [nothing, *PROGRAMS]:
        compiled = module.compile(pattern)
        run(compiled), run(compiled)
        marks.begin()
        for _ in range(times):
            run(compiled)
        marks.end(f"{kind}|{name}|{times}".encode())


if __name__ == "__main__":
    main()
