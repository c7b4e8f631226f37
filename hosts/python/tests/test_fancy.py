"""What is the engine's own: expected values are by the syntax of fancy-regex, and by hand."""

import array
import gc
import mmap
import pickle
import re as stdlib
import tempfile
import threading
import time
import unittest

import fancy
from fancy import re
from fancy._texts import Text, text_of


class Syntax(unittest.TestCase):
    def test_beyond_re(self):
        for pattern, text, span in [
            (r"(\((?:[^()]|\g<1>)*\))", "f(a(b)c)+1", (1, 8)),
            (r"\p{Greek}+", "abc αβγ", (4, 7)),
            (r"a\Kb", "ab", (1, 2)),
            (r"[a-z&&[^b]]+", "bcd", (1, 3)),
            (r"(?<n>a)\k<n>", "baa", (1, 3)),
            (r"\h+", "xyz 0fF", (4, 7)),
            (r"\R", "a\r\n", (1, 3)),
            (r"(?<=a|bc)d", "bcd", (2, 3)),
            (r"/\*(?~\*/)\*/", "x /* a */ */", (2, 9)),
        ]:
            self.assertEqual(fancy.search(pattern, text).span(), span, pattern)

    def test_where_a_dollar_holds(self):
        self.assertIsNone(fancy.search("a$", "a\n"))
        self.assertEqual(fancy.search(r"a\Z", "a\n").span(), (0, 1))
        self.assertEqual(fancy.search("(?m)a$", "a\n").span(), (0, 1))

    def test_empty_matches(self):
        # one directly after another match is left out
        self.assertEqual(fancy.findall("a*", "aab"), ["aa", ""])
        self.assertEqual(fancy.findall("(a*)", "aab"), ["aa", ""])
        self.assertEqual(fancy.sub("x*", "-", "abxd"), "-a-b-d-")
        self.assertEqual(fancy.sub("(x*)", "-", "abxd"), "-a-b-d-")
        self.assertEqual(fancy.sub("(x*)", r"<\1>", "abxd"), "<>a<>b<x>d<>")
        self.assertEqual(fancy.sub("(x*)", r"<\g<0>>", "abxd"), "<>a<>b<x>d<>")
        self.assertEqual(fancy.subn("x*", "-", "abxd"), ("-a-b-d-", 4))
        self.assertEqual(fancy.split("x*", "axbc"), ["", "a", "b", "c", ""])

    def test_both_lists_are_one(self):
        for pattern in ("", "a|", r"\b", "a*", r"\Ga", r"a\K", "(?=a)", r"(?<=a\K)b|a", "é|"):
            for text in ("", "aab a", "baé aéa", "éé"):
                alone = [it.span() for it in fancy.finditer(pattern, text)]
                with_groups = [it.span() for it in fancy.finditer(f"{pattern}()" if "|" not in pattern else f"(?:{pattern})()", text)]
                self.assertEqual(alone, with_groups, (pattern, text))

    def test_names(self):
        pattern = fancy.compile("(?<k>a)|(?<k>b)|(?<other>c)")
        self.assertEqual(dict(pattern.groupindex), {"k": 1, "other": 3})
        self.assertEqual([it.group("k") for it in pattern.finditer("abc")], ["a", "b", None])
        self.assertEqual(pattern.sub(r"<\g<k>>", "abc"), "<a><b><>")
        self.assertEqual(fancy.search("(?<π>a)", "a").groupdict(), {"π": "a"})
        self.assertEqual(fancy.sub("(?<π>a)", r"<\g<π>>", "a"), "<a>")

    def test_whole_matches(self):
        for pattern, text, found in [
            ("a|ab", "ab", True),
            ("a+?", "aaa", True),
            ("(?x) a+ # with a comment", "aa", True),
            ("(?x) a+ # with a comment", "aab", False),
            (r"\((?:[^()]|\g<0>)*\)", "(a(b))", True),
            (r"\((?:[^()]|\g<0>)*\)", "(a(b))c", False),
            (r"\((?:[^()]|(?0))*\)", "()", True),
        ]:
            self.assertEqual(fancy.fullmatch(pattern, text) is not None, found, (pattern, text))
        self.assertEqual(fancy.fullmatch("(a|ab)(c|bcd)", "abcd").groups(), ("a", "bcd"))

    def test_options(self):
        self.assertEqual(fancy.compile("a+", swap_greed=True).search("aa").span(), (0, 1))
        self.assertEqual(fancy.compile("a*", find_not_empty=True).search("ba").span(), (1, 2))
        self.assertEqual(fancy.compile("a|ab", leftmost_longest=True).search("ab").span(), (0, 2))
        self.assertEqual(fancy.compile("(?m)^b", crlf=True).search("a\r\nb").span(), (3, 4))
        only_named = fancy.compile("(?<n>a)(b)", ignore_numbered_groups_when_named_groups_exist=True)
        self.assertEqual(only_named.search("ab").groups(), ("a",))


class Errors(unittest.TestCase):
    def test_names(self):
        for pattern, name, pos in [
            (r"\q", "InvalidEscape", 1),
            ("(?z)", "UnknownFlag", 2),
            ("(?<1a>a)", "InvalidGroupName", 3),
            (r"(?<n>a)\k<m>", "UnresolvedAstNode", 7),
            (r"é\g<m>", "SubroutineCallTargetNotFound", 1),
            (r"(a)\2", "InvalidBackref", 3),
            ("(a\\g<1>)", "NeverEndingRecursion", 2),
            ("[a&&[b]", "InvalidClass", 7),
            ("é|[b-a]", "InnerError", 2),
            ("(?<=ab|c)(?<!xa+)b", "VariableLookBehindRequiresFeature", 13),
            (r"x(?<n>(?:\g<n>|a)b)", "LeftRecursiveSubroutineCall", 9),
            ("ab(*SKIP)", "FeatureNotYetSupported", 2),
        ]:
            with self.assertRaises(fancy.error) as caught:
                fancy.compile(pattern)
            self.assertEqual((caught.exception.name, caught.exception.pos), (name, pos), pattern)

    def test_messages(self):
        for pattern, message, pos in [
            (r"(?<n>a)\k<m>", "there is no group named 'm'", 7),
            (r"(a)\2", "there is no group 2", 3),
            ("é[b-a]", "the class [b-a] is invalid", 1),
            (r"x(?<n>(?:\g<n>|a)b)", "group 'n' (1) calls itself before it matches a character", 9),
        ]:
            with self.assertRaises(fancy.error) as caught:
                fancy.compile(pattern)
            self.assertTrue(caught.exception.msg.startswith(message), caught.exception.msg)
            self.assertEqual(str(caught.exception), f"{caught.exception.msg} at position {pos}")

    def test_limits(self):
        pattern = fancy.compile(r"(a|b|ab)*(?=c)c\1", backtrack_limit=1000)
        for call in (pattern.search, pattern.findall, pattern.split, lambda text: pattern.sub("", text)):
            with self.assertRaises(fancy.LimitError) as caught:
                call("ab" * 30 + "dc")
            self.assertEqual(caught.exception.name, "BacktrackLimitExceeded")
        self.assertIsInstance(caught.exception, fancy.error)
        # afterwards it searches as before
        self.assertEqual(pattern.search("aca").span(), (0, 3))

    def test_limits_of_visits_and_memory(self):
        # an a or an ab, and then a c or a bcd: a search has to choose, and keeps its choice
        choices = "(?:a|ab)(?:c|bcd)"
        for limit, name in (("visit_limit", "VisitLimitExceeded"), ("memory_limit", "MemoryLimitExceeded")):
            pattern = fancy.compile(choices, **{limit: 1})
            for call in (pattern.search, pattern.findall, pattern.split, lambda text: pattern.sub("", text)):
                with self.assertRaises(fancy.LimitError) as caught:
                    call("xabcd")
                self.assertEqual(caught.exception.name, name)
            self.assertEqual(fancy.compile(choices, **{limit: 0}).search("xabcd").span(), (1, 5))
        self.assertEqual(fancy.compile(choices).search("xabcd").span(), (1, 5))

    def test_limit_of_analysis(self):
        # eight nodes, in four rounds that change something: in two the sizes of the groups, and then that of the whole, and in
        # two what is known to end, since there is a call
        looked_at = r"(a)(b)\1\2\g<1>"
        with self.assertRaises(fancy.error) as caught:
            fancy.compile(looked_at, analysis_limit=31)
        self.assertEqual((caught.exception.name, caught.exception.pos), ("AnalysisLimitExceeded", None))
        self.assertEqual(caught.exception.msg, "the analysis of the pattern exceeds its limit")
        self.assertNotIsInstance(caught.exception, fancy.LimitError)
        for options in ({"analysis_limit": 32}, {"analysis_limit": 0}, {}):
            self.assertEqual(fancy.compile(looked_at, **options).search("xababa").span(), (1, 6))
        # what has no references exceeds no limit, and a limit comes before other refusals
        self.assertEqual(fancy.compile("(a)(b)", analysis_limit=1).search("ab").groups(), ("a", "b"))
        for limit, name in ((3, "AnalysisLimitExceeded"), (4, "InvalidBackref")):
            with self.assertRaises(fancy.error) as caught:
                fancy.compile(r"(a)\2", analysis_limit=limit)
            self.assertEqual(caught.exception.name, name)



class Surrogates(unittest.TestCase):
    """A lone surrogate is one character, which is U+10F800 and its number to a pattern."""

    def test_searches(self):
        text = "é\ud800b\udfff"
        found = fancy.search(r"(.)b(\W)", text)
        self.assertEqual((found.regs, found.groups(), found.string), (((1, 4), (1, 2), (3, 4)), ("\ud800", "\udfff"), text))
        self.assertEqual((fancy.findall("[\ud800-\udfff]", text), fancy.findall(r"\x{10F800}", text)), (["\ud800", "\udfff"], ["\ud800"]))
        self.assertEqual(fancy.split("b", text), ["é\ud800", "\udfff"])
        self.assertEqual(fancy.sub("b", "\udc80", text), "é\ud800\udc80\udfff")
        self.assertEqual(fancy.sub("(b)(.)", r"\2\1", text), "é\ud800\udfffb")
        self.assertEqual([it.span() for it in fancy.finditer(r"\W", text)], [(1, 2), (3, 4)])
        self.assertEqual([it.span() for it in fancy.finditer(r"\W", text, fancy.A)], [(0, 1), (1, 2), (3, 4)])
        self.assertEqual(fancy.compile("b").search(text, 2, 3).span(), (2, 3))
        scanner = fancy.Scanner([fancy.compile("b"), fancy.compile(".")])
        self.assertEqual([it.match.span() for it in scanner.scan(text)], [(0, 1), (1, 2), (2, 3), (3, 4)])
        self.assertEqual(fancy.compile("\ud800").pattern, "\ud800")

    def test_long_texts(self):
        text = "é\udc80a" * 2000
        self.assertEqual([it.start() for it in fancy.finditer("a", text)], [*range(2, 6000, 3)])
        self.assertEqual(fancy.compile("a").search(text, 4000).span(), (4001, 4002))

    def test_what_stands_for_them(self):
        for pattern, text in (("a", "\ud800\U0010f800"), ("\ud800\U0010ffff", "a")):
            self.assertRaises(UnicodeEncodeError, fancy.search, pattern, text)
        self.assertEqual(fancy.search("b", "\U0010f800b").span(), (1, 2))


class Bytes(unittest.TestCase):
    def test_latin_1(self):
        pattern = fancy.compile(rb"(?<n>\w+)=(\xE9|[^\x00-\x7f])?")
        found = pattern.search(b"\xff a1=\xe9")
        self.assertEqual((found.span(), found.groups(), found.groupdict()), ((2, 6), (b"a1", b"\xe9"), {"n": b"a1"}))
        self.assertEqual(fancy.findall(rb"(?i)\xe9|K", b"\xc9\xe9k"), [b"\xe9", b"k"])
        self.assertEqual(fancy.findall(b"(?i)\xe9+", b"\xc9\xe9\xe9"), [b"\xe9\xe9"])
        for pattern in (b"[\xe9k]+", rb"[^\xE9k]", rb"[\x80-\xC9\d]", b"\xe9{2}|\\xe8"):
            text = b"\xc9\xe9\xe9Kk1\xc8\xe8"
            self.assertEqual(fancy.findall(pattern, text, fancy.I), stdlib.findall(pattern, text, stdlib.I))
        text = b"a1_ \t\x1c\x85\xa0\xaa\xb5\xb9\xe9\xff-"
        for escape in (rb"\w", rb"\W", rb"\d", rb"\D", rb"\s", rb"\S", rb"\b", rb"\B", rb"[\w-]", rb"[^\W\d]", rb"[^a]"):
            self.assertEqual([it.span() for it in fancy.finditer(escape, text)], [it.span() for it in stdlib.finditer(escape, text)])
        self.assertEqual(fancy.compile(b"\xe9").sub(rb"<\g<0>>", b"a\xe9"), b"a<\xe9>")
        self.assertEqual(fancy.escape(b"a.\xe9"), b"a\\.\xe9")
        self.assertEqual((fancy.compile(b"a").flags, fancy.compile(b"a") == fancy.compile("a")), (0, False))

    def test_utf8(self):
        text = "ä é".encode() + b"\xff\xe2\x82 " + "é€".encode()
        word = fancy.compile(r"[\wé]+".encode(), utf8=True)
        self.assertEqual([it.span() for it in word.finditer(text)], [(0, 2), (3, 5), (9, 11)])
        bad = fancy.compile(rb"\x{FFFD}", utf8=True)
        self.assertEqual((bad.findall(text), bad.split(text)), ([b"\xff", b"\xe2\x82"], [text[:5], b"", text[8:]]))
        self.assertEqual(bad.sub(rb"<\g<0>>", text), text[:5] + b"<\xff><\xe2\x82>" + text[8:])
        # a position inside a character is that of the next one
        self.assertEqual([word.search(text, it).span() for it in (0, 1, 2, 3, 4)], [(0, 2), (3, 5), (3, 5), (3, 5), (9, 11)])
        self.assertEqual(fancy.compile("(?<ä>.)".encode(), utf8=True).sub(r"\g<ä>!".encode(), b"\xc3\xa9"), b"\xc3\xa9!")
        self.assertEqual(fancy.compile(b".", fancy.A, utf8=True).findall("é€".encode()), ["é".encode(), "€".encode()])
        for wrong, kind in ((("a",), ValueError), ((b"\xff",), UnicodeDecodeError)):
            self.assertRaises(kind, fancy.compile, *wrong, utf8=True)
        self.assertRaises(ValueError, fancy.compile, b"a", fancy.U)

    def test_places_in_utf8(self):
        pieces = [b"a", b"\xc3\xa9", b"\xf0\x9f\x98\x80", b"\xff", b"\xe2\x82", b"\xf0\x9f\x98", b"\xef\xbf\xbd"]
        dot = fancy.compile(b"(?s).", utf8=True)
        for step in (1, 2, 3, 5):
            parts = [pieces[number * step % len(pieces)] + b"x" for number in range(1500)]
            text = b"".join(parts)
            starts = [0]
            for part in parts:
                starts += starts[-1] + len(part) - 1, starts[-1] + len(part)
            self.assertEqual([it.start() for it in dot.finditer(text)], starts[:-1])
            for place in (1, 100, len(text) // 2, len(text) - 3):
                start = min(it for it in starts if it >= place)
                self.assertEqual(dot.match(text, place).span(), (start, min(it for it in starts if it > start)))

    def test_errors(self):
        for options, pattern, pos in (({}, b"\xe9(", 2), ({"utf8": True}, b"\xc3\xa9(", 3)):
            with self.assertRaises(fancy.error) as caught:
                fancy.compile(pattern, **options)
            self.assertEqual((caught.exception.pattern, caught.exception.pos), (pattern, pos))
        with self.assertRaises(fancy.error) as caught:
            fancy.sub(b"a", rb"\xe9\2", b"a")
        self.assertEqual(type(caught.exception.pattern), bytes)
        with self.assertRaises(fancy.LimitError) as caught:
            fancy.compile(rb"(a|b|ab)*(?=c)c\1", backtrack_limit=1000).search(b"ab" * 30 + b"dc")
        self.assertEqual(caught.exception.pattern, rb"(a|b|ab)*(?=c)c\1")

    def test_buffers(self):
        flat = b"a1\xe9b22"
        with tempfile.TemporaryFile() as file:
            file.write(flat)
            file.flush()
            with mmap.mmap(file.fileno(), 0) as mapped:
                for text in (bytearray(flat), memoryview(flat), array.array("B", flat), mapped):
                    found = fancy.search(rb"([a-z])(\d+)", text, 0)
                    self.assertEqual((found.groups(), found.string is text), ((b"a", b"1"), True))
                    self.assertEqual(fancy.findall(rb"\d+|\xe9", text), [b"1", b"\xe9", b"22"])
                    self.assertEqual((fancy.split(rb"\xe9", text), fancy.sub(rb"\d", b"", text)), ([b"a1", b"b22"], b"a\xe9b"))
                    self.assertEqual([it.index for it in fancy.Scanner([fancy.compile(rb"\d")]).scan(text)], [0, 0, 0])
                del text, found
        for wrong in (memoryview(flat)[::2], 1, None, [1]):
            self.assertRaises(TypeError, fancy.search, b"a", wrong)
        self.assertRaises(TypeError, fancy.sub, b"a", "x", b"a")
        self.assertRaises(TypeError, fancy.sub, b"a", lambda it: "x", b"a")
        self.assertEqual(fancy.sub(b"a", lambda it: bytearray(b"x"), b"ab"), b"xb")

    def test_a_buffer_keeps_its_size_while_it_is_searched(self):
        text = bytearray(b"a1" * 10)
        matches = fancy.finditer(rb"\d", text)
        next(matches)
        self.assertRaises(BufferError, text.append, 1)
        del matches
        gc.collect()
        found = fancy.search(rb"(\d)", text)
        text[1:2] = b"7"
        # a match has the bytes of now
        self.assertEqual(found[1], b"7")
        text.clear()
        self.assertEqual(found[1], b"")

    def test_a_call_costs_no_whole_text(self):
        for text, options in ((b"\xe9" * 500_000, {}), (b"e" * 500_000, {}), (b"\xff" * 500_000, {"utf8": True})):
            pattern = fancy.compile(b"(?s).", **options)
            pattern.match(text, 1)
            begun = time.process_time()
            for place in range(0, 400_000, 1000):
                self.assertEqual(pattern.match(text, place).span(), (place, place + 1))
            self.assertLess(time.process_time() - begun, 0.2)

    def test_scanners(self):
        scanner = fancy.Scanner([fancy.compile(rb"\xe9+"), fancy.compile(rb"\w")])
        found = [(it.index, it.match.span(), it.match[0]) for it in scanner.scan(b"-\xe9\xe9a")]
        self.assertEqual(found, [(0, (1, 3), b"\xe9\xe9"), (1, (3, 4), b"a")])
        self.assertRaises(TypeError, fancy.Scanner, [fancy.compile(b"a"), fancy.compile("a")])
        self.assertRaises(TypeError, scanner.search, "a")

    def test_values(self):
        for pattern in (fancy.compile(b"\xe9", fancy.I), fancy.compile(b"a", utf8=True)):
            self.assertEqual(pickle.loads(pickle.dumps(pattern)), pattern)
        self.assertNotEqual(fancy.compile(b"a"), fancy.compile(b"a", utf8=True))
        self.assertEqual(repr(fancy.search(b"a", b"ba")), "<fancy.Match object; span=(1, 2), match=b'a'>")


class Places(unittest.TestCase):
    def test_bytes_and_characters(self):
        for string in ("", "abc", "é" * 600, "a😀é" * 300, "x" * 1000 + "é", "é" + "x" * 255, "é" * 256):
            text = Text(string)
            byte = 0
            for place, letter in enumerate(string):
                self.assertEqual((text.byte_of(place), text.place_of(byte)), (byte, place))
                byte += len(letter.encode())
            self.assertEqual((text.byte_of(len(string)), text.place_of(byte)), (byte, len(string)))

    def test_zeros(self):
        self.assertEqual(fancy.search("\0(.)", "a\0b").span(1), (2, 3))
        self.assertEqual(fancy.sub("b", "\0", "abc"), "a\0c")

    def test_texts_are_kept(self):
        strings = [letter * 1000 for letter in "aé😀"]
        texts = [text_of(it) for it in strings]
        for string, text in zip(strings, texts):
            self.assertIs(text_of(string), text)
            # an equal one has the same places
            self.assertIs(text_of("".join([string[:500], string[500:]])), text)
        for number in range(50):
            text_of(str(number))
        self.assertIsNot(text_of(strings[0]), texts[0])
        fancy.purge()

    def test_a_call_costs_no_whole_text(self):
        text, pattern = "é" * 500_000, fancy.compile("é")
        pattern.match(text, 1)
        begun = time.process_time()
        for place in range(0, 400_000, 1000):
            self.assertEqual(pattern.match(text, place).span(), (place, place + 1))
        # 400 calls: each that reads the text once takes a millisecond or two
        self.assertLess(time.process_time() - begun, 0.2)

    def test_long_texts(self):
        text = "é=1 " * 50_000
        self.assertEqual(len(fancy.findall("é", text)), 50_000)
        self.assertEqual(len(fancy.sub("(é)=", ":", text)), 150_000)
        self.assertEqual(len(fancy.sub("(é)=", r"\1\1:", text)), 250_000)
        self.assertEqual(sum(it.start(1) for it in fancy.finditer("é(=)", text)), sum(range(1, 200_000, 4)))
        self.assertEqual(sum(it.start() for it in fancy.finditer("=", text)), sum(range(1, 200_000, 4)))


class Threads(unittest.TestCase):
    def test_one_pattern_in_threads(self):
        pattern, failed = fancy.compile(r"(\d+)-(\d+)"), []

        def search(number):
            for step in range(300):
                match = pattern.search(f"ab {number}-{step} cd")
                if match.groups() != (str(number), str(step)):
                    failed.append(match)

        threads = [threading.Thread(target=search, args=(number,)) for number in range(8)]
        for thread in threads:
            thread.start()
        for thread in threads:
            thread.join()
        self.assertEqual(failed, [])
        # a handle for each thread at most
        self.assertLessEqual(pattern._idle, 8)

    def test_long_texts_in_threads(self):
        """Where the extension lets Python's lock go."""
        pattern, failed = fancy.compile(r"(\d+)-(\d+)"), []
        text = "".join(f"{number}-{number + 1} é" for number in range(500)) + " " * 20_000
        wanted = [(str(number), str(number + 1)) for number in range(500)]

        def search(number):
            for _ in range(5):
                spans = [it.span() for it in pattern.finditer(text)]
                if pattern.findall(text) != wanted or pattern.sub("", text).rstrip() != " é" * 500 or len(spans) != 500:
                    failed.append(number)

        threads = [threading.Thread(target=search, args=(number,)) for number in range(4)]
        for thread in threads:
            thread.start()
        for thread in threads:
            thread.join()
        self.assertEqual(failed, [])
        self.assertLessEqual(pattern._idle, 4)

    def test_one_iterator_in_threads(self):
        text = "a-b " * 6000
        for _ in range(5):
            matches, counts = fancy.finditer(r"(\w)-(\w)", text), []

            def count():
                found = 0
                try:
                    found = sum(1 for _ in matches)
                except ValueError:
                    pass  # another thread is searching with it
                counts.append(found)

            threads = [threading.Thread(target=count) for _ in range(4)]
            for thread in threads:
                thread.start()
            for thread in threads:
                thread.join()
            self.assertLessEqual(sum(counts), 6000)

    def test_calls_at_the_same_time(self):
        pattern = fancy.compile("(?<n>a)|b", find_not_empty=True)
        text = "abc" * 8000
        # a search while another stands
        for it in pattern.finditer(text):
            if it.start() % 1000 == 0:
                self.assertEqual(pattern.sub(r"<\g<n>>", "abc"), "<a><>c")
                self.assertEqual(pattern.search(text, it.start()).span(), it.span())
        self.assertLessEqual(pattern._idle, 2)

    def test_memory_is_freed(self):
        def used():
            gc.collect()
            with open("/proc/self/statm", encoding="ascii") as file:
                return int(file.read().split()[1])

        def work():
            for number in range(300):
                pattern = fancy.Pattern(f"(a|b{number})*c", fancy.NOFLAG, {})
                pattern.sub(lambda it: it.group(1) or "", "abac" * 20)

        work()
        before = used()
        for _ in range(4):
            work()
        self.assertLess(used() - before, 2000, "pages of 4 kB")


class Scanners(unittest.TestCase):
    def scanner(self, *patterns, **options):
        return fancy.Scanner([fancy.compile(it, **options) for it in patterns])

    def spans(self, scanner, *arguments):
        return [(it.index, it.match.span(), it.stopped) for it in scanner.scan(*arguments)]

    def test_the_first_of_many(self):
        scanner = self.scanner('"[^"]*"', "(?<word>[a-zé]+)(?<digit>[0-9])?", "[a-z]")
        self.assertEqual(self.spans(scanner, 'é1 "b c" d'), [(1, (0, 2), None), (0, (3, 8), None), (1, (9, 10), None)])
        found = scanner.search("é1 b", 2)
        self.assertEqual((found.index, found.match.groupdict()), (1, {"word": "b", "digit": None}))
        self.assertIs(found.match.re, scanner.patterns[1])
        self.assertIsNone(scanner.search("1"))
        self.assertIsNone(scanner.search("ab", 2))
        self.assertEqual(self.spans(scanner, "ab cd", 1, 4), [(1, (1, 2), None), (1, (3, 4), None)])
        self.assertEqual(self.spans(scanner, "ab", 2, 1), [])
        self.assertEqual(len(self.spans(scanner, "a " * 1000)), 1000)

    def test_patterns_of_re(self):
        scanner = fancy.Scanner([re.compile(r"(?P<n>\d)+(?(n)a|b)"), fancy.compile("b+")])
        self.assertEqual(self.spans(scanner, "é bb 12a"), [(1, (2, 4), None), (0, (5, 8), None)])
        self.assertEqual(scanner.search("2a").match.groupdict(), {"n": "2"})
        self.assertEqual(fancy.Scanner([re.compile(rb"\xe9")]).search(b"a\xe9").match.span(), (1, 2))

    def test_without_patterns(self):
        self.assertEqual(self.spans(self.scanner(), "a"), [])

    def test_matches_of_nothing(self):
        self.assertEqual(self.spans(self.scanner("a", "(?=b)|$"), "abc"), [(0, (0, 1), None), (1, (1, 1), None), (1, (3, 3), None)])

    def test_beside_a_limit(self):
        scanner = fancy.Scanner([fancy.compile("c", step_limit=0), fancy.compile("a|(?=b)")])
        scan = scanner.scan("abc")
        self.assertEqual(next(scan)[::2], (1, 0))
        self.assertEqual(next(scan).match.span(), (1, 1))
        with self.assertRaises(fancy.LimitError) as raised:
            next(scan)
        self.assertEqual((raised.exception.name, raised.exception.pattern), ("StepLimitExceeded", "c"))

    def test_beside_a_limit_of_visits(self):
        scanner = fancy.Scanner([fancy.compile("(?:a|ab)(?:c|bcd)", visit_limit=1), fancy.compile("x")])
        scan = scanner.scan("xabcd")
        self.assertEqual(next(scan)[::2], (1, 0))
        with self.assertRaises(fancy.LimitError) as raised:
            next(scan)
        self.assertEqual((raised.exception.name, raised.exception.pattern), ("VisitLimitExceeded", "(?:a|ab)(?:c|bcd)"))

    def test_as_each_pattern_says(self):
        patterns = [fancy.compile(it) for it in ("a+", "(?<=a)b", "c|ab", "é*", r"(.)\1")]
        for text in ("aabab cc é", "ab" * 40, "ééé a", ""):
            for place in range(len(text) + 1):
                firsts = [(match.start(), number) for number, it in enumerate(patterns) if (match := it.search(text, place))]
                found = fancy.Scanner(patterns).search(text, place)
                self.assertEqual((found.match.start(), found.index), min(firsts))


if __name__ == "__main__":
    unittest.main()
