"""The module `fancy.re` beside Python's `re`: each expected value is what `re` answers."""

import array
import copy
import pickle
import random
import re
import unittest
import warnings

from fancy import re as ours

from .test_like_re import PATTERNS, described

# what the package itself reads otherwise
OTHERWISE = [
    ("a$", ["a\n", "a", "a\nb"]),
    (r"a\Z", ["a\n", "a"]),
    (r"(?m)^a$", ["b\na\n", "a"]),
    ("a*", ["aab", "", "baac"]),
    ("a|", ["aab"]),
    ("|a", ["aab"]),
    (r"\b|:+", ["a::bc"]),
    (r'(?P<q>")?a(?(q)"|b)', ['"a"', "ab", '"ab']),
    (r"\N{LATIN SMALL LETTER E WITH ACUTE}\N{EM DASH}", ["é—"]),
    (r"\0\x00\101\060", ["\0\0A0"]),
    (r"(?a:\w)\w", ["aé", "éa"]),
    (r"(?a)\w+|\s", ["aé b"]),
    (r"[[a]", ["[", "a"]),
    (r"[a&&b]", ["&"]),
    (r"[\b]\w", ["\ba"]),
    (r"[\s]", ["\x1c", "\x85", "\u2028"]),
    (r"\w+", ["a\u0301b", "१२", "²"]),
    (r"(?:(?=a))*a|(?:\b)+b", ["a", "b"]),
    (r"(?:a|(?=b))*?b", ["aab"]),
    (r"(?i)k[ſ-ſ]i", ["KSİ", "Ksı", "kſI"]),
    (r"(?ia)k+", ["kK\u212a"]),
    (r"(?P<_1>a)(?P=_1)", ["aa"]),
    (r"(?s:.)(?-i:a)(?i:A)", ["\naa", "aaA"]),
    (r"a{,2}b{", ["aab{"]),
    (r"x{", ["x{"]),
    (r"(?x) a b # comment", ["ab"]),
    (r"\B", ["", "ab"]),
]  # fmt: skip


def everything(pattern, text):
    """What the functions of a pattern answer."""
    yield [described(getattr(pattern, name)(text)) for name in ("search", "match", "fullmatch")]
    yield [described(pattern.search(text, pos, end)) for pos in range(3) for end in (1, 3, 99)]
    yield [described(it) for it in pattern.finditer(text)]
    yield pattern.findall(text), pattern.split(text), pattern.split(text, 1)
    empty, whole = (b"", rb"<\g<0>>") if isinstance(text, bytes) else ("", r"<\g<0>>")
    yield pattern.subn(empty, text), pattern.subn(whole, text, 2), pattern.sub(lambda it: it[0] + it[0], text)


class BesideRe(unittest.TestCase):
    def same(self, pattern, text, flags=0):
        with self.subTest(pattern=pattern, text=text, flags=flags):
            got, want = ours.compile(pattern, flags), re.compile(pattern, flags)
            self.assertEqual([*everything(got, text)], [*everything(want, text)])
            self.assertEqual((got.flags, got.groups, dict(got.groupindex)), (want.flags, want.groups, dict(want.groupindex)))

    def test_patterns(self):
        with warnings.catch_warnings():
            warnings.simplefilter("ignore")
            for pattern, texts in PATTERNS + OTHERWISE:
                for text in texts:
                    for flags in (0, re.I, re.M | re.S, re.A):
                        self.same(pattern, text, flags)

    def test_bytes(self):
        for pattern, text in [
            (rb"\w+", b"ab \xe9c"), (rb"(?i)\xe9|k", b"K\xe9\xc9"), (rb"[^a]", b"\xff\n"), (rb"(?P<n>.)(?P=n)", b"aa\xfe\xfe"),
            (rb"a*", b"baa"), (rb"$", b"a\n"), (rb"\x80-\xff", b"\x80-\xff"), (rb"[\x80-\xff]+", b"a\x80\xff"), (rb"(?L)\w\xe9", b"a\xe9"),
        ]:  # fmt: skip
            self.same(pattern, text)
        for text in (bytearray(b"a1"), memoryview(b"a1"), array.array("B", b"a1")):
            got, want = (it.search(rb"[a-z](\d)", text) for it in (ours, re))
            self.assertEqual((got.groups(), got.string, got[0]), (want.groups(), want.string, want[0]))
        for text in ("\ud800a", "a\udfffé", "\ud801"):
            for pattern in ("\ud800", r"[\ud800-\udfff]", ".", r"\W", "[^\ud800]", r"(?:\udfff|a){2}", "[\x80-\uffff]"):
                self.same(pattern, text)
            self.same("[\U0010f800-\U0010ffff]", text)
        for of in (ours, re):
            self.assertRaises(TypeError, of.search, b"a", "a")
            self.assertRaises(TypeError, of.search, "a", b"a")

    def test_random_patterns(self):
        source = random.Random(1)
        # no \W: where `re` begins a search it reads (?a:\W) without the flag
        atoms = [*"abcAé.^$1_ ", r"\d", r"\S", r"\b", r"\B", r"\Z", "[^a]", r"[\w-]", "[[]", "ſ", "İ", r"\1", r"\0", "(?(1)a|b)"]

        def node(depth):
            if depth == 0 or source.random() < 0.3:
                return source.choice(atoms)
            form = source.choice(["{}{}", "{}|{}", "({})", "(?:{}){}", "(?={})", "(?!{})", "(?i:{})", "(?a:{})", "(?P<n>{})"])
            loop = source.choice(["*", "+?", "?", "{1,2}", "{2}", "??"])
            return form.format(node(depth - 1), loop if form == "(?:{}){}" else node(depth - 1))

        with warnings.catch_warnings():
            warnings.simplefilter("ignore", FutureWarning)
            for _ in range(250):
                pattern = node(4)
                if not self.is_refused(pattern):
                    for _ in range(3):
                        self.same(pattern, "".join(source.choice("abcABé1_ \nİſ\0") for _ in range(source.randrange(8))))

    def is_refused(self, pattern):
        try:
            re.compile(pattern)
            return False
        except re.error as fault:
            with self.assertRaises(ours.error) as caught:
                ours.compile(pattern)
            self.assertEqual((str(caught.exception), caught.exception.pos), (str(fault), fault.pos))
            return True

    def test_values(self):
        for pattern in ("(a)", b"(a)"):
            made = ours.compile(pattern, ours.I)
            self.assertIs(ours.compile(made), made)
            self.assertEqual((pickle.loads(pickle.dumps(made)), copy.copy(made), copy.deepcopy(made)), (made, made, made))
            self.assertEqual(repr(made), repr(re.compile(pattern, re.I)))
            self.assertNotEqual(made, ours.compile(pattern))
        self.assertIs(ours.error, re.error)
        self.assertRaises(ValueError, ours.compile, ours.compile("a"), ours.I)

    def test_scanner(self):
        for pattern in ("a|", r"\w", "b", ""):
            for name in ("search", "match"):
                got, want = ([it.span() for it in iter(getattr(of.compile(pattern).scanner("aab a"), name), None)] for of in (ours, re))
                self.assertEqual(got, want, (pattern, name))

    def test_tokens(self):
        lexicon = [(r"[0-9]+", lambda scanner, token: (token, scanner.match.span())), (r"\s+", None), (r"(a|b)c", "word")]
        for text in ("12 ac 7", "ac bc!", "", "!"):
            self.assertEqual(ours.Scanner(lexicon).scan(text), re.Scanner(lexicon).scan(text))
        self.assertEqual(ours.Scanner([(b"\xe9", 1)], ours.I).scan(b"\xe9\xe9a"), ([1, 1], b"a"))

    def test_templates(self):
        got, want = (it.compile("(?P<k>a)(b)?") for it in (ours, re))
        for template in [r"\1", r"\g<1>1", r"\g<k>", r"\2", r"\n\t\\", r"\0", r"\101", "$1"]:
            self.assertEqual((got.sub(template, "xab a"), got.search("a").expand(template)), (want.sub(template, "xab a"), want.search("a").expand(template)))
        for template in ["\\", r"\3", r"\g<", r"\g<k k>", r"\q"]:
            with self.assertRaises(re.error) as caught:
                want.sub(template, "a")
            with self.assertRaises(ours.error) as fault:
                got.sub(template, "a")
            self.assertEqual(str(fault.exception), str(caught.exception))


if __name__ == "__main__":
    unittest.main()
