"""What is the same as in Python's `re`: each expected value is what `re` answers."""

import copy
import pickle
import re
import unittest

import fancy

# patterns that mean the same in both, with texts
PATTERNS = [
    ("a(b|bc)d", ["xabcd", "abd", "abbd", ""]),
    (r"\b([a-z]+) \1\b", ["it was was so", "no", "a a"]),
    (r"(?<=\$)[0-9]+", ["cost $42", "cost 42"]),
    (r"(?<!x)y(?!z)", ["xy yz y", "yz"]),
    (r"(?P<year>\d{4})-(?P<month>\d\d)", ["on 2026-11-26", "2026-1", "1999-12 2000-01"]),
    (r"(a)|(b)|c", ["abc", "cab", "xyz"]),
    (r"(<)?b(?(1)>)", ["<b>", "b", "<b"]),
    (r"[^\W\d_]+", ["für 3 Äpfel_x", "12"]),
    (r"(?i)straße|ä", ["STRASSE straße Ä", "x"]),
    (r"x+?y*", ["xxyy xy x", ""]),
    (r"(?s).b", ["\nb ab"]),
    (r"(?m)^\w", ["a\nb c\n d"]),
    (r"(?x) a  # one\n b", ["ab a b"]),
    (r"(?:(a)|b)+", ["ab", "ba", "bb"]),
    (r"\w+\s*=\s*(\w*)", ["k = v", "k=", "é = ü, a=b"]),
    (r"(?>a+)b", ["aab", "aac"]),
    (r"a++b", ["aab", "aa"]),
    (r"((a)(b)?)((c))?", ["abc", "ac", "a"]),
    (r"[\]\-a]+", ["a-]b"]),
    (r"😀(.)", ["a😀é😀😀b"]),
]


def described(match):
    if match is None:
        return None
    return (
        match.span(), match.group(), match.groups(), match.groups("none"), match.groupdict(), match.regs, match.start(), match.end(),
        match.pos, match.endpos, match.string, [match.span(it) for it in range(len(match.regs))], match.lastindex, match.lastgroup,
    )  # fmt: skip


class LikeRe(unittest.TestCase):
    def each(self):
        for pattern, texts in PATTERNS:
            for text in texts:
                with self.subTest(pattern=pattern, text=text):
                    yield re.compile(pattern), fancy.compile(pattern), text

    def test_one_match(self):
        for wanted, given, text in self.each():
            for name in ("search", "match", "fullmatch"):
                self.assertEqual(described(getattr(given, name)(text)), described(getattr(wanted, name)(text)), name)

    def test_parts_of_a_text(self):
        for wanted, given, text in self.each():
            for pos in range(-1, len(text) + 2):
                for endpos in range(-1, len(text) + 2):
                    for name in ("search", "match", "fullmatch"):
                        got, want = (getattr(it, name)(text, pos, endpos) for it in (given, wanted))
                        self.assertEqual(described(got), described(want), (name, pos, endpos))

    def test_all_matches(self):
        for wanted, given, text in self.each():
            self.assertEqual([*map(described, given.finditer(text))], [*map(described, wanted.finditer(text))])
            self.assertEqual(given.findall(text), wanted.findall(text))
            for pos in range(len(text) + 1):
                self.assertEqual(given.findall(text, pos, len(text) - 1), wanted.findall(text, pos, len(text) - 1), pos)

    def test_split(self):
        for wanted, given, text in self.each():
            for most in (-1, 0, 1, 2):
                self.assertEqual(given.split(text, most), wanted.split(text, most), most)

    def test_sub(self):
        for wanted, given, text in self.each():
            for repl in ("", "-", r"<\g<0>>", "$0", r"\\\n\x00"[:4], lambda it: f"<{it.group()}>"):
                for count in (0, 1, 2):
                    self.assertEqual(given.sub(repl, text, count), wanted.sub(repl, text, count), (repl, count))
                    self.assertEqual(given.subn(repl, text, count), wanted.subn(repl, text, count), (repl, count))
            if wanted.groups:
                self.assertEqual(given.sub(r"[\1]", text), wanted.sub(r"[\1]", text))
                self.assertEqual(given.subn(r"[\g<1>0]", text), wanted.subn(r"[\g<1>0]", text))

    def test_about_a_pattern(self):
        for wanted, given, _ in self.each():
            self.assertEqual((given.pattern, given.groups), (wanted.pattern, wanted.groups))
            self.assertEqual(dict(given.groupindex), dict(wanted.groupindex))
        self.assertEqual(fancy.compile("a", fancy.I | fancy.X).flags, re.compile("a", re.I | re.X).flags)

    def test_flags(self):
        text = "Ab\nab É\né"
        for pattern in ("a b", "^a", "b$", ".ab", "é", r"\w+", r"\W", "[^a]", r"[^\Wé]|\Bb", r"\b\S"):
            for letters in ("", "I", "M", "S", "X", "A", "IM", "ISX"):
                if pattern == "b$" and "M" not in letters:
                    continue  # a `$` holds before a last newline in `re` alone
                wanted = fancied = 0
                for letter in letters:
                    wanted |= getattr(re, letter)
                    fancied |= getattr(fancy, letter)
                with self.subTest(pattern=pattern, flags=letters):
                    self.assertEqual(fancy.findall(pattern, text, fancied), re.findall(pattern, text, wanted))
                    self.assertEqual(fancy.findall(pattern, text, wanted), re.findall(pattern, text, wanted))

    def test_functions(self):
        for name in ("search", "match", "fullmatch"):
            got, want = (getattr(it, name)("(a)b", "ab") for it in (fancy, re))
            self.assertEqual(described(got), described(want))
        self.assertEqual(fancy.split("[,;] *", "a, b;c"), re.split("[,;] *", "a, b;c"))
        self.assertEqual(fancy.split("([,;])", "a,b;c", 1), re.split("([,;])", "a,b;c", 1))
        self.assertEqual(fancy.sub("(a)", r"\1\1", "banana", 2), re.sub("(a)", r"\1\1", "banana", 2))
        self.assertEqual(fancy.subn("a", "", "banana"), re.subn("a", "", "banana"))
        self.assertEqual(len(list(fancy.finditer("a", "banana"))), 3)

    def test_escape(self):
        text = "".join(map(chr, range(1, 300)))
        self.assertEqual(fancy.escape(text), re.escape(text))
        for flags in (0, fancy.X, fancy.I):
            self.assertTrue(fancy.fullmatch(fancy.escape(text), text, flags))

    def test_match_by_keys(self):
        got, want = (it.search(r"(?P<k>a)(b)?", "a") for it in (fancy, re))
        for of in (got, want):
            self.assertEqual((of["k"], of[2], of["k"], of.group("k", 2, 0)), ("a", None, "a", ("a", None, "a")))
            self.assertEqual((of.span("k"), of.start(2), of.end(2), bool(of)), ((0, 1), -1, -1, True))
            self.assertEqual(of.expand(r"\g<k>-\1-\2"), "a-a-")
            for wrong in (3, -1, "x", None, 1.5):
                self.assertRaises(IndexError, of.group, wrong)
                self.assertRaises(IndexError, of.span, wrong)

    def test_templates(self):
        wanted, given = re.compile("(?P<k>a)(b)?"), fancy.compile("(?P<k>a)(b)?")
        for template in ["$1 ${k} $$", r"\1", r"\g<1>1", r"\g<k>", r"\2", r"\n\t\\", r"\0", r"\07", r"\101", r"\.", r"\-", "\\\n"]:
            self.assertEqual(given.sub(template, "xab a"), wanted.sub(template, "xab a"), template)
            self.assertEqual(given.subn(template, "xab a"), wanted.subn(template, "xab a"), template)
        for template in ["\\", r"\3", r"\g", r"\g<", r"\g<>", r"\g<1", r"\g<3>", r"\g<k k>", r"\q", r"\401", r"x\4"]:
            with self.subTest(template=template):
                with self.assertRaises(re.error) as want:
                    wanted.sub(template, "a")
                with self.assertRaises(fancy.error) as got:
                    given.sub(template, "a")
                self.assertEqual(got.exception.pos, want.exception.pos)
        for of in (wanted, given):
            self.assertRaises(IndexError, of.sub, r"\g<x>", "a")

    def test_last_index(self):
        for pattern, text in [
            ("(a)()", "a"), ("(a())", "a"), ("((a))", "a"), ("(a)(b)?", "a"), ("((a)|(b))*", "ab"), ("(a)|(b)", "b"), ("a", "a"),
            (r"(a\))(b[(]())", "a)b("), ("(?x)(a) # (\n(b)", "ab"), ("(?:(a)(?#()(b))", "ab"), ("(a)(?(1)(b)|(c))", "ab"),
            ("(?=a(a))(a)", "aa"), ("(?=a(a))(?:(a)|b)", "aa"), ("(?:(a)|(b))+", "aba"), ("(?:(a)|(b))+", "bab"),
            ("(?:(a)|(b)){1}(c)", "ac"), ("(?x)(?:(a)|(b)) # twice\n {2}", "ba"), ("((?=a(b))a)+", "ab"), ("(?:(a)(?:(b)|(c))*)+", "abcb"),
        ]:  # fmt: skip
            want, got = re.search(pattern, text), fancy.search(pattern, text)
            self.assertEqual(got.lastindex, want.lastindex, pattern)

    def test_deep_nests(self):
        # `re` allows 100 groups that capture, and more that do not
        for opening in ("(?:", "(?>", "(?="):
            pattern = opening * 250 + "a" + ")" * 250
            for name in ("search", "match", "fullmatch"):
                got, want = (getattr(it, name)(pattern, "a") for it in (fancy, re))
                self.assertEqual(described(got), described(want), (name, opening))
        self.assertEqual(fancy.fullmatch("(" * 250 + "a|b" + ")" * 250, "b").span(250), (0, 1))
        self.assertEqual(fancy.fullmatch("(a" * 250 + ")" * 250, "a" * 250).span(), (0, 250))

    def test_whole_matches(self):
        # branches, comments, classes and escapes at the end of a pattern, and what looks like a call of it
        for pattern, texts in [
            (r"\\g<0>a*?", [r"\g<0>", r"\g<0>aa", r"\g<0>b"]),
            ("a|ab|abc", ["a", "ab", "abc", "abcd"]),
            ("|a", ["", "a", "aa"]),
            ("a|", ["", "a"]),
            (r"[|]|\|\||(a|b)c", ["|", "||", "ac", "bc", "c"]),
            ("(?x) a | b # | c\n | d # e | f", ["a", "b", "c", "d", "e"]),
            ("(?x: a # | )\n)|b#", ["a", "b#", "b"]),
            ("a(?# | )|b(?#)", ["a", "b"]),
            (r"(?i)a|(?:b|c)\Z", ["A", "C"]),
            (r"(a)|b(?(1)c|d)", ["a", "bd", "bc"]),
        ]:
            for text in texts:
                for pos, end in ((0, 99), (1, 99), (0, 1)):
                    got, want = (it.compile(pattern).fullmatch(text, pos, end) for it in (fancy, re))
                    self.assertEqual(described(got), described(want), (pattern, text, pos, end))

    def test_replacements(self):
        for repl in (lambda it: None, lambda it: it[2], lambda it: ""):
            for count in (0, 1):
                got, want = (it.subn("(a)(b)?", repl, "abcab a", count) for it in (fancy, re))
                self.assertEqual(got, want)
        for repl in (1, None, 1.5, b"x", ("x",), lambda it: 1, lambda it: b"x", lambda it: [it[0]]):
            for of in (fancy, re):
                self.assertRaises(TypeError, of.sub, "a", repl, "a")
        for repl in (1, None, 1.5):
            for of in (fancy, re):
                self.assertRaises(TypeError, of.sub, "b", repl, "a")
                self.assertRaises(TypeError, of.search("a", "a").expand, repl)

    def test_errors(self):
        for pattern, at in [("(a", 2), ("a)", 1), ("a**", 2), ("é(", 2), ("[a", 2), ("\\", 1), ("a\n(?", 4)]:
            with self.subTest(pattern=pattern):
                self.assertRaises(re.error, re.compile, pattern)
                with self.assertRaises(fancy.error) as caught:
                    fancy.compile(pattern)
                fault = caught.exception
                self.assertEqual((fault.pattern, fault.pos), (pattern, at))
                self.assertTrue(fault.msg and fault.name)
                self.assertIn(f"at position {at}", str(fault))
                self.assertNotIn("byte", fault.msg)
        self.assertEqual((fault.lineno, fault.colno), (2, 3))

    def test_what_is_refused(self):
        for pattern in (bytearray(b"a"), 1, None):
            self.assertRaises(TypeError, fancy.compile, pattern)
        self.assertRaises(TypeError, fancy.search, "a", b"a")
        self.assertRaises(TypeError, fancy.compile, "a", nothing=1)
        self.assertRaises(ValueError, fancy.compile, fancy.compile("a"), fancy.I)
        self.assertRaises(ValueError, fancy.compile, "a", re.DEBUG)
        self.assertRaises(ValueError, fancy.compile, "a", fancy.A | fancy.U)
        self.assertRaises(ValueError, fancy.compile, "a", step_limit=-1)
        self.assertRaises(ValueError, fancy.compile, "a", step_limit=2**64)
        self.assertRaises(TypeError, fancy.compile, "a", step_limit="1")

    def test_values(self):
        pattern = fancy.compile("(a)", fancy.I)
        self.assertIs(fancy.compile("(a)", fancy.I), pattern)
        self.assertIs(fancy.compile(pattern), pattern)
        self.assertEqual(copy.copy(pattern), pattern)
        self.assertEqual(copy.deepcopy(pattern), pattern)
        self.assertNotEqual(fancy.compile("(a)"), pattern)
        limited = fancy.compile("(a)", fancy.I, step_limit=7)
        again = pickle.loads(pickle.dumps(limited))
        self.assertEqual((again, hash(again)), (limited, hash(limited)))
        self.assertNotEqual(again, pattern)
        self.assertEqual(repr(pattern), "fancy.compile('(a)', fancy.IGNORECASE)")
        self.assertEqual(repr(pattern.search("bA")), "<fancy.Match object; span=(1, 2), match='A'>")
        fault = pickle.loads(pickle.dumps(fancy.error("m", "p", 0, "n")))
        self.assertEqual((fault.msg, fault.pattern, fault.pos, fault.name), ("m", "p", 0, "n"))


class Liar(str):
    """A string that says of itself what is not so."""

    def __len__(self):
        return 10**9

    def __getitem__(self, place):
        return "lie"

    def __eq__(self, other):
        return True

    def __hash__(self):
        return 1

    def encode(self, *given):
        return b"\xff" * 3

    def __str__(self):
        return "lie"

    def __iter__(self):
        return iter(["lie"])

    def find(self, *given):
        return 10**6


class Endless(str):
    def __len__(self):
        while True:
            pass


class LyingInt(int):
    """A number that is less than all others, and so is no number less than it."""

    def __lt__(self, other):
        return True

    __le__ = __ne__ = __lt__

    def __gt__(self, other):
        return False

    __ge__ = __eq__ = __gt__

    def __hash__(self):
        return 1


class Strings(unittest.TestCase):
    """Strings and numbers of classes of the caller's are read as what they hold, as `re` reads them."""

    def test_searches(self):
        for kind in (Liar, Endless):
            for wanted, given in ((re, fancy),):
                text, pattern = kind("x=1 é=22"), kind(r"(\w)=(\d+)")
                for name in ("search", "match", "fullmatch"):
                    got, want = getattr(given, name)(r"(\w)=(\d+)", text), getattr(wanted, name)(r"(\w)=(\d+)", text)
                    self.assertEqual(got and (got.regs, got.groups()), want and (want.regs, want.groups()), name)
                    self.assertIs(got and got.string, want and want.string)
                self.assertEqual(given.compile(pattern).findall("a=1"), [("a", "1")])
                self.assertEqual(given.findall(r"\d+", text), wanted.findall(r"\d+", text))
                self.assertEqual(given.split("=", text), wanted.split("=", text))
                self.assertEqual(given.sub("=", "-", text), wanted.sub("=", "-", text))
                self.assertEqual((given.sub("#", "-", text), type(given.sub("#", "-", text))), ("x=1 é=22", str))
                self.assertEqual(given.sub("1", kind(r"<\g<0>>"), "a1"), "a<1>")
                self.assertEqual(given.search("(1)", "a1").expand(kind(r"<\1>")), "<1>")
                self.assertEqual(given.escape(kind("a.b")), r"a\.b")
                found = fancy.Scanner([given.compile(r"\d+")]).scan(text)
                self.assertEqual([it.match.span() for it in found], [(2, 3), (6, 8)])

    def test_patterns_are_told_apart(self):
        self.assertEqual(fancy.findall(Liar("a"), "ab"), ["a"])
        self.assertEqual(fancy.findall(Liar("b"), "ab"), ["b"])
        self.assertEqual([fancy.findall(".", it) for it in (Liar("a"), Liar("bc"), "d")], [["a"], ["b", "c"], ["d"]])

    def test_numbers(self):
        wanted, given = re.compile("(a)"), fancy.compile("(a)")
        for number in (LyingInt(10**9), LyingInt(-(10**9)), LyingInt(1), True):
            for name in ("search", "match", "fullmatch"):
                for places in ((number,), (0, number), (number, number)):
                    got, want = (getattr(it, name)("bab", *places) for it in (given, wanted))
                    self.assertEqual(described(got), described(want), (name, int(number)))
            self.assertEqual(given.sub("-", "aaa", number), wanted.sub("-", "aaa", number))
            self.assertEqual(given.split("aaa", number), wanted.split("aaa", number))
        for of in (given, wanted):
            self.assertEqual(of.search("a").group(LyingInt(1)), "a")
            self.assertRaises(IndexError, of.search("a").group, LyingInt(7))
            for wrong in (1.0, "1", None):
                self.assertRaises(TypeError, of.search, "a", wrong)
                self.assertRaises(TypeError, of.sub, "-", "a", wrong)
                self.assertRaises(TypeError, of.split, "a", wrong)


if __name__ == "__main__":
    unittest.main()
