"""Patterns and texts that are made to cost time or memory, by families."""
from collections import namedtuple

MOST_PATTERN, MOST_TEXT = 10_000, 100_000
Pair = namedtuple("Pair", "family pattern text")


def fill(piece, size):
    return (piece * (size // len(piece) + 1))[:size]


def nested(open_, body, close, depth):
    return open_ * depth + body + close * depth


def chain(link, count):
    """Groups of which only the first is called; each has `link`, with the number of the next for N."""
    return "(?:" + "".join(f"({link.replace('N', str(k + 2))})" for k in range(count)) + "(z)){0}\\g<1>"


def a(size):
    return fill("a", size)


def ab(size):
    return fill("ab", size)


CODES = "".join(f"\\x{{{1000 + 2 * k:x}}}" for k in range(800))
FAMILIES = {
    "counts in counts": (
        ["(?:(?:a|bc|b){1,300}x?){1,300}c", "(?:(?:a|ab|b){1,30}){1,3000}c", "(?:a{1000}){1000}", "(?:(?:a?){100}){100}c",
         "(?:a{0,500}b?){0,500}c", "(?:(?:(?:a|b){1,20}c?){1,20}d?){1,20}e",
         "(?:" * 10 + "a|b){1,3}" + "c?){1,3}" * 9 + "e"],
        [ab(1_000), ab(10_000), ab(100_000)]),
    "stars in stars": (
        ["(a*)*c", "(?:a*)*c", "(?:(?:a|aa)+)+$c", "(a+a+)+c", "(?:a|a|ab)*[cd]", "(?:.*?,){20}x"],
        [a(1_000), a(100_000), ab(100_000)]),
    "hard loops": (
        ["(a)(?:\\1|\\1\\1)+c", "(a)(?:\\1*\\1*)*c", "(?:(a)|(aa)|\\1)+(?=c)", "(x)?(?:a?(?!b)){40}c", "(?:a(?=a)|a)+c",
         "(?:a*?(?=.)){9}c"],
        [a(60), a(5_000), a(100_000)]),
    "look-arounds in loops": (
        ["(?>(?:a(?=a))*)z", "(?:a(?=.*b))*c", "(?:a(?!.*c))*c", "(?:(?<=a)a|a)*c", "(?:(?=a{1,100})a)*\\bc",
         "(?:(?=(a*))a)*c"],
        [a(1_000), a(100_000), ab(100_000)]),
    "look-behind": (
        ["(?<=a{9000})c", "(?:(?<=a{3000})a|(?<=a{100})a)*c", "(?<!a{500})c|(?<=a{700})d", "(?<=\\G.{200})c"],
        [a(1_000), a(100_000), fill("word ", 100_000)]),
    "references": (
        ["(?=((?:ab)*))\\1c", "(.*)\\1c", "(a*)(b*)\\1\\2c", "(?i)(?=((?:ab)*))\\1c", "(\\w+) .*\\1 \\1", "(a*?)(?:\\1x)*c"],
        [ab(1_000), ab(50_000), a(100_000)]),
    "atomic parts": (
        ["(?>(?:a[ab])*)[c-d]", "(?>a*)c", "(?:(?>a+)|(?>b+))*c", "(?>(?:ab)*+)(?>a*+)c", "(?>(?:ab|a|b)*)c"],
        [a(16_000), ab(100_000)]),
    "counted loops that stand still": (
        ["(?~a){18446744073709551614}", "(?>a?|b){1000000000000}", "(a?+){1000000000000}\\1", "(?:(?=a)|(?!b)){1000000000000}c",
         "(?:\\b|\\B|(?=x)){4000000000}(?=a)", "(?:(a?)|\\1){1000000000}c"],
        ["", "a", ab(1_000)]),
    "absent repeaters": (
        ["(?~ab)c", "(?:(?~ab)|a)*c", "(?~(?:a|b)*c)(?~c)d", "(?~(?~a)b)c"],
        [a(100_000), ab(1_000), ab(100_000)]),
    "classes": (
        [f"[{CODES}]*c", "(?i)[\\p{L}--\\p{Lu}]+\\d", "(?:[^a]|[^b])*c(?=d)", nested("[a&&", "[ab]", "]", 200) + "*c",
         "\\p{L}+\\p{N}(?=x)"],
        [a(100_000), fill("äö", 50_000)]),
    "conditionals": (
        ["(a)?(?(1)a|b)*c", "(?:(a)|b(?(1)a|b))*c", "(?:(a)?(?(1)(?=a)a|b))+c", "(?(?=(a*)b)\\1c|a)*d"],
        [a(1_000), ab(100_000)]),
    "calls": (
        ["(?<x>a|b\\g<x>?c)*d", "(?<x>\\((?:[^()]|\\g<x>)*\\))c", "(?<x>a\\g<x>?b)c", "(?:(a)\\g<1>*)*c"],
        [a(1_000), fill("(", 100_000), ab(100_000)]),
    "rings": ([chain("a\\g<N>?", n) for n in (30, 300, 700)], [a(1_000), a(100_000)]),
    "calls twice": ([chain("a?\\g<N>\\g<N>", n) for n in (10, 20, 30)], [a(1_000)]),
    "many branches": (
        ["(?:" + "|".join(f"w{k}x" for k in range(1_500)) + ")+c(?=d)", "(?>(?:" + "|".join(f"a{k}" for k in range(1_500)) + "|a)*)c",
         "(?:" + "|".join(a(k) for k in range(1, 130)) + ")*c"],
        [a(10_000), fill("w7xw8x", 100_000)]),
    "long literals": (
        ["(a)?(?:x?){20}" + a(9_000) + "b", "(?:a|b)*?" + a(9_000) + "b(?=c)", "(?i)" + a(9_000) + "b(?!c)"],
        [a(20_000), a(100_000)]),
    "literals in loops": (
        ["(?:a(?!" + a(9_000) + "b))*c", "(?:a(?=" + a(4_000) + "))*c", "(?i)(x)?(?:" + a(1_000) + "b|a)*?c\\1"],
        [a(20_000), a(100_000)]),
    "many lines": (
        ["(?:(a)|(aa)|\\1)+(?=c)", "(?:a?){16}a{16}(?=b|c)"],
        [fill("c" + a(16) + "\n", 100_000)]),
    "deep nests": (
        [nested(open_, "a", close, n) + "c" for open_, close in (("(?:", ")*"), ("(", ")?")) for n in (100, 1_000)],
        [a(1_000), a(100_000)]),
    "optional parts": (
        ["(?:a?){%d}a{%d}" % (n, n) for n in (30, 1_000)] + ["(a?)" * n + "(?=c)\\1" for n in (30, 1_000)],
        [a(30), a(1_000), a(100_000)]),
}


def with_all(pattern, text):
    """The text with each letter and digit of the pattern behind it, since a missing one ends a search at once."""
    end = " " + "".join(sorted({it for it in pattern if it.isalnum()}))
    return text.encode()[:MOST_TEXT - len(end.encode())].decode(errors="ignore") + end


def pairs():
    """Each pattern of a family with each of its texts."""
    for family, (patterns, texts) in FAMILIES.items():
        yield from (Pair(family, pattern, with_all(pattern, text)) for pattern in patterns for text in texts)
