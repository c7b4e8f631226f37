"""Patterns and the trees that they spell, in the notation, from the description of the syntax alone."""

import re
from collections import namedtuple

LEAST_TOO_LARGE = 2**64 - 1  # as a count of a loop
MOST_NESTED = 250

Flags = namedtuple("Flags", "i m s x R U u", defaults=(False,) * 6 + (True,))
# by the names of the options of the parser
FLAG_NAMES = {
    "case_insensitive": "i",
    "multi_line": "m",
    "dot_matches_new_line": "s",
    "ignore_whitespace": "x",
    "crlf": "R",
    "swap_greed": "U",
}
# what a group's number or name is asked for, where it was written
Asked = namedtuple("Asked", "naming folded target level at")
# what the notation cannot spell: a name without a group, and a folded reference with a level
NOWHERE = "nowhere"
BEHIND = {"a": "\a", "e": "\x1b", "f": "\f", "n": "\n", "r": "\r", "t": "\t", "v": "\v"}
PLACES = {"A": "start", "z": "end", "B": "nwb", "<": "wstart", ">": "wend", "G": "cont", "K": "keep"}
BOUNDARIES = {"{start}": "wstart", "{end}": "wend", "{start-half}": "whstart", "{end-half}": "whend"}
LOOKS = {"?=": "ahead", "?!": "nahead", "?<=": "behind", "?<!": "nbehind"}
VERBS = {"FAIL)": "fail", "F)": "fail", "ACCEPT)": "accept", "COMMIT)": "commit", "SKIP)": "skip", "PRUNE)": "prune"}
DIGITS = {"x": 2, "u": 4, "U": 8}
NO_TARGETS = {"empty", "keep", "cont", "start", "end", "endnl", "endcrlf", "wb", "nwb", "wstart", "wend", "whstart"}
NO_TARGETS |= {"whend", "bol", "eol", "obol", "bolcrlf", "eolcrlf", "obolcrlf", *LOOKS.values()}
ASCII_BLANKS = " \t\n\r"
ASCII_DIGITS = "0123456789"
ASCII_LETTERS = "abcdefghijklmnopqrstuvwxyzABCDEFGHIJKLMNOPQRSTUVWXYZ"


class Fault(Exception):
    """A pattern that spells no tree: the kind, and the character where the fault is."""

    def __init__(self, kind, at):
        super().__init__(kind, at)
        self.kind, self.at = kind, at


def quoted(text):
    """A text of the notation."""
    spelled = {'"': '\\"', "\\": "\\\\", "\n": "\\n", "\r": "\\r"}
    return '"' + "".join(spelled.get(it, it if it.isprintable() else f"\\u{{{ord(it):x}}}") for it in text) + '"'


class Reader:
    """Reads one pattern; a node is a tuple of its word and what follows it."""

    def __init__(self, text, flags, oniguruma, named_only):
        self.text, self.flags, self.oniguruma, self.named_only = text, flags, oniguruma, named_only
        self.at = self.opened = self.depth = 0
        self.names = []
        self.by_number = False

    # ---- characters

    def peek(self):
        return self.text[self.at : self.at + 1]

    def take(self, word):
        """Whether the word is next; then it is passed."""
        there = self.text.startswith(word, self.at)
        self.at += len(word) * there
        return there

    def run(self, test):
        start = self.at
        while self.peek() and test(self.peek()):
            self.at += 1
        return self.text[start : self.at]

    def fail(self, kind, at=None):
        raise Fault(kind, self.at if at is None else at)

    def gaps(self):
        while True:
            if self.take("(?#"):
                end = re.compile(r"(?<!\\)\)").search(self.text, self.at)
                if not end:
                    self.fail("UnclosedOpenParen", len(self.text))
                self.at = end.end()
            elif self.flags.x and self.peek() and self.peek() in ASCII_BLANKS:
                self.at += 1
            elif self.flags.x and self.take("#"):
                self.run(lambda it: it != "\n")
            else:
                return

    # ---- alternatives, branches, pieces

    def pattern(self):
        tree = self.alternatives()
        if self.peek():
            self.fail("UnopenedCloseParen")
        return tree

    def alternatives(self):
        branches = [self.branch()]
        while self.take("|"):
            branches.append(self.branch())
        return branches[0] if len(branches) == 1 else ("alt", *branches)

    def branch(self):
        pieces = []
        self.gaps()
        while self.peek() and self.peek() not in "|)":
            pieces.append(self.piece())
            self.gaps()
        pieces = [it for it in pieces if it != ("empty",)]
        if not pieces:
            return ("empty",)
        return pieces[0] if len(pieces) == 1 else ("cat", *pieces)

    def piece(self):
        start = self.at
        if self.quantifier_is_next():
            # counts that are out of order are at fault themselves
            self.quantifier()
            self.fail("TargetNotRepeatable", start)
        node = self.atom()
        self.gaps()
        if not self.quantifier_is_next():
            return node
        start = self.at
        lo, hi = self.quantifier()
        if node[0] in NO_TARGETS:
            self.fail("TargetNotRepeatable", start)
        self.gaps()
        lazy, possessive = self.flags.U, False
        if self.take("?"):
            lazy = not lazy
        elif self.take("+"):
            possessive = True
        loop = ("lazy" if lazy else "rep", lo, hi, node)
        return ("atom", loop) if possessive else loop

    def counts(self):
        blanks = "[ \t\n\r]*" if self.flags.x else ""
        number = f"{blanks}([0-9]*){blanks}"
        found = re.compile(f"{{{number}(,)?{number}}}").match(self.text, self.at)
        if not found or not (found[1] or found[3]) or (found[3] and not found[2]):
            return None
        return found

    def quantifier_is_next(self):
        return bool(self.peek()) and (self.peek() in "*+?" or self.counts() is not None)

    def quantifier(self):
        for mark, bounds in (("*", (0, "*")), ("+", (1, "*")), ("?", (0, 1))):
            if self.take(mark):
                return bounds
        found = self.counts()
        lo = int(found[1] or 0)
        hi = lo if not found[2] else int(found[3]) if found[3] else "*"
        if max(lo, 0 if hi == "*" else hi) >= LEAST_TOO_LARGE or (hi != "*" and lo > hi):
            self.fail("InvalidRepeat")
        self.at = found.end()
        return lo, hi

    # ---- atoms

    def literal(self, character):
        return ("literal", character, self.flags.i)

    def set(self, text):
        return ("iset" if self.flags.i else "set", quoted(text))

    def atom(self):
        start = self.at
        character = self.peek()
        self.at += 1
        f = self.flags
        if character == "\\":
            return self.escape()
        if character == "(":
            return self.parenthesis(start)
        if character == "[":
            return self.set(self.class_text())
        crlf = "crlf" if f.R else ""
        if character == ".":
            return ("any" if f.s else "dot" + crlf,)
        if character == "^":
            return (("obol" if self.oniguruma else "bol") + crlf if f.m else "start",)
        if character == "$":
            return ("eol" + crlf if f.m else "end",)
        return self.literal(character)

    def escape(self):
        start = self.at
        character = self.peek()
        if not character:
            self.fail("TrailingBackslash")
        self.at += 1
        f = self.flags
        if character in DIGITS:
            return self.literal(self.coded(DIGITS[character]))
        if character in "pP":
            return self.set("\\" + character + self.property())
        if character in "dDsSwW":
            return self.set("\\" + character)
        if character == "b":
            for word, name in BOUNDARIES.items():
                if self.take(word):
                    return (name,)
            return ("wb",)
        if character in "kg":
            return self.delimited("ref" if character == "k" else "call")
        if character in ASCII_DIGITS:
            self.at = start
            return self.asked("ref", self.number(), None, start)
        if character in PLACES:
            return (PLACES[character],)
        if character == "Z":
            return ("endcrlf" if f.R else "endnl",)
        if character == "R":
            return ("nl" if f.u else "nlascii",)
        if character in "ON":
            return ("any" if character == "O" else "dot",)
        if character in "hH":
            return ("set", quoted("[0-9A-Fa-f]" if character == "h" else "[^0-9A-Fa-f]"))
        if character in BEHIND:
            return self.literal(BEHIND[character])
        if character in ASCII_LETTERS:
            self.fail("InvalidEscape", start)
        return self.literal(character)

    def coded(self, count):
        """The character of the hexadecimal number that is next."""
        hexadecimal = lambda it: it in "0123456789abcdefABCDEF"
        braced = self.take("{")
        start = self.at
        digits = self.run(hexadecimal)
        if braced:
            if len(digits) > 8:
                self.fail("InvalidHex", start + 8)
            if not digits or not self.take("}"):
                self.fail("InvalidHex")
        else:
            if len(digits) < count:
                self.fail("InvalidHex")
            digits = digits[:count]
            self.at = start + count
        code = int(digits, 16)
        if code > 0x10FFFF or 0xD800 <= code < 0xE000:
            self.fail("InvalidCodepointValue", start)
        return chr(code)

    def property(self):
        start = self.at
        if not self.take("{"):
            self.at += 1
        elif "}" in self.text[start:]:
            self.at = self.text.index("}", start) + 1
        else:
            self.at = len(self.text) + 1
        if self.at > len(self.text):
            self.fail("UnclosedUnicodeName", len(self.text))
        return self.text[start : self.at]

    def class_text(self):
        """What is in a class, with its brackets, as it is handed on."""
        out, depth, head = ["["], 1, True
        while depth:
            start = self.at
            character = self.peek()
            if not character:
                self.fail("InvalidClass")
            self.at += 1
            was_head, head = head, False
            if character == "\\":
                out.append(self.class_escape())
            elif character == "]" and was_head:
                out.append("\\]")
            else:
                depth += {"[": 1, "]": -1}.get(character, 0)
                head = character == "[" or (character == "^" and self.text[start - 1] == "[" and was_head)
                out.append(character)
        return "".join(out)

    def class_escape(self):
        start = self.at
        character = self.peek()
        if not character:
            self.fail("InvalidClass")
        self.at += 1
        if character in DIGITS:
            return f"\\x{{{ord(self.coded(DIGITS[character])):X}}}"
        if character in "pP":
            return "\\" + character + self.property()
        fixed = {"h": "0-9A-Fa-f", "H": "[^0-9A-Fa-f]", "b": "\\x08", "e": "\\x1B"}
        if character in fixed:
            return fixed[character]
        if character in "dDsSwWnrtvfa":
            return "\\" + character
        if character in ASCII_LETTERS + ASCII_DIGITS:
            self.fail("InvalidEscape", start)
        # `regex` reads no escape of `<`, of `>` or of a character beyond ASCII as the character
        return character if character in "<>" or ord(character) > 127 else "\\" + character

    # ---- what names a group

    def name(self):
        if not (self.peek() == "_" or self.peek().isalpha()):
            self.fail("InvalidGroupName")
        return self.run(lambda it: it == "_" or it in ASCII_DIGITS or it.isalpha())

    def number(self):
        start = self.at
        digits = self.run(lambda it: it in ASCII_DIGITS)
        if not digits:
            self.fail("InvalidGroupName")
        if int(digits) >= 2**64:
            self.fail("InvalidBackref", start)
        return int(digits)

    def target(self):
        """A name, a group's number, or None for one before the first."""
        if self.peek() and self.peek() in ASCII_DIGITS:
            return self.number()
        if self.take("-"):
            back = self.number()
            return self.opened - back + 1 if 0 < back <= self.opened else None
        if self.take("+"):
            onward = self.number()
            return self.opened + onward if onward else None
        return self.name()

    def level(self):
        sign = self.peek()
        if not sign or sign not in "+-":
            return None
        self.at += 1
        return int(sign + str(self.number()))

    def close(self, character):
        if not self.take(character):
            self.fail("InvalidGroupName")

    def asked(self, naming, target, level, at):
        self.by_number |= not isinstance(target, str)
        return ("asked", Asked(naming, self.flags.i and naming == "ref", target, level, at))

    def reference(self, naming, end):
        start = self.at
        target = self.target()
        level = None if naming == "call" else self.level()
        self.close(end)
        return self.asked(naming, target, level, start)

    def delimited(self, naming):
        ends = {"<": ">", "'": "'", **({"{": "}"} if naming == "ref" else {})}
        if self.peek() not in ends:
            self.fail("InvalidGroupName")
        end = ends[self.peek()]
        self.at += 1
        return self.reference(naming, end)

    def named(self, naming, end):
        start = self.at
        name = self.name()
        self.close(end)
        return self.asked(naming, name, None, start)

    # ---- parentheses

    def enter(self, parenthesis):
        if self.depth == MOST_NESTED:
            self.fail("RecursionExceeded", parenthesis)
        self.depth += 1

    def leave(self, flags):
        """The parenthesis that closes; the flags from before the group hold again."""
        if not self.take(")"):
            self.fail("UnclosedOpenParen")
        self.depth -= 1
        self.flags = flags

    def around(self, parenthesis, read, flags=None):
        """What is in the group, read with these flags."""
        outside = self.flags
        self.enter(parenthesis)
        self.flags = flags or outside
        found = read()
        self.leave(outside)
        return found

    def group(self, parenthesis, name=None):
        if name is None and self.named_only:
            return self.around(parenthesis, self.alternatives)
        self.opened += 1
        if name is not None:
            self.names.append((name, self.opened))
        return ("grp", self.around(parenthesis, self.alternatives))

    def named_group(self, parenthesis, end):
        name = self.name()
        self.close(end)
        return self.group(parenthesis, name)

    def parenthesis(self, start):
        if self.take("*"):
            return self.verb()
        if not self.take("?"):
            return self.group(start)
        for word, kind in ((">", "atom"), ("=", "ahead"), ("!", "nahead"), ("<=", "behind"), ("<!", "nbehind")):
            if self.take(word):
                return (kind, self.around(start, self.alternatives))
        if self.take(":"):
            return self.around(start, self.alternatives)
        if self.take("~"):
            return self.absent(start)
        if self.take("<") or self.take("P<"):
            return self.named_group(start, ">")
        if self.take("'"):
            return self.named_group(start, "'")
        if self.take("P="):
            return self.named("ref", ")")
        if self.take("P>") or self.take("&"):
            return self.named("call", ")")
        if self.take("("):
            return self.conditional(start)
        if re.compile("[+-]?[0-9]|[+]").match(self.text, self.at):
            return self.reference("call", ")")
        return self.flags_item(start)

    def flags_item(self, start):
        flags, on, wanted = self.flags, True, True
        while True:
            character = self.peek()
            if not character:
                self.fail("UnclosedOpenParen")
            if character == "P" and self.at == start + 2:
                self.at += 1  # a name, a reference or a call might follow
                self.fail("UnknownFlag" if self.peek() else "UnclosedOpenParen")
            if character in "):" and not wanted:
                break
            if character == "-" and on:
                on, wanted = False, True
            elif character == "u" and not on:
                self.fail("NonUnicodeUnsupported")
            elif character in "imsxRUu":
                flags, wanted = flags._replace(**{character: on}), False
            else:
                self.fail("UnknownFlag")
            self.at += 1
        self.at += 1
        if character == ":":
            return self.around(start, self.alternatives, flags)
        self.flags = flags
        return ("empty",)

    def verb(self):
        for word, verb in VERBS.items():
            if self.take(word):
                return ("verb", verb)
        rest = self.text[self.at :]
        common = max(len([i for i in range(len(it)) if rest[: i + 1] == it[: i + 1]]) for it in VERBS)
        self.fail("GeneralParseError", self.at + common)

    def absent(self, start):
        if self.take("|)"):
            return ("absclear",)
        if not self.take("|"):
            return ("absent", self.around(start, self.alternatives))

        def parts():
            absent = self.branch()
            return ("absexp", absent, self.alternatives()) if self.take("|") else ("absstop", absent)

        return self.around(start, parts)

    def conditional(self, start):
        if self.take("DEFINE)"):
            return ("define", self.around(start, self.alternatives))
        found = re.compile(r"[0-9]+([+-][0-9]+)?\)").match(self.text, self.at)
        if found:
            return self.around(start, lambda: self.branches(self.reference("has", ")"), True))
        if self.peek() and self.peek() in "<'":
            condition = self.delimited("has")
            self.close(")")
            return self.around(start, lambda: self.branches(condition, True))
        for word, kind in LOOKS.items():
            if self.take(word):
                return self.around(start, lambda: self.branches((kind, self.condition())))
        return self.around(start, lambda: self.branches(self.condition()))

    def condition(self):
        return self.around(self.at - 1, self.alternatives)

    def branches(self, condition, may_stand_alone=False):
        self.gaps()
        if may_stand_alone and self.peek() == ")":
            return condition
        yes = self.branch()
        no = self.alternatives() if self.take("|") else ("empty",)
        return ("if", condition, yes, no)


# ---- the notation

# this many groups may have a name that is referred to
MOST_NAMESAKES = 100


def named_tree(asked, group):
    """One group, in the notation."""
    if asked.naming == "call":
        return f"(call {group})"
    if asked.level is not None:
        if asked.folded:
            return NOWHERE
        return f"({asked.naming}level {group} {asked.level})"
    return f"({'i' if asked.folded else ''}{asked.naming} {group})"


def resolved(asked, names):
    """The groups that are named."""
    groups = [asked.target] if isinstance(asked.target, int) else []
    if isinstance(asked.target, str):
        groups = [number for name, number in names if name == asked.target]
    if not groups:
        return NOWHERE
    if len(groups) == 1:
        return named_tree(asked, groups[0])
    if asked.naming == "call" or len(groups) > MOST_NAMESAKES:
        raise Fault("InvalidGroupNameBackref", asked.at)
    return f"(alt {' '.join(named_tree(asked, it) for it in reversed(groups))})"


def shown(node, names):
    """A node in the notation."""
    word, *rest = node
    if word == "literal":
        return ("i" if rest[1] else "") + quoted(rest[0])
    if word == "asked":
        return resolved(rest[0], names)
    parts = [shown(it, names) if isinstance(it, tuple) else str(it) for it in rest]
    return f"({' '.join([word, *parts])})" if parts else word


Read = namedtuple("Read", "tree names by_number ignored")


def read(text, options=()):
    """The tree of a pattern in the notation, its names with their groups, and what else comes with a tree."""
    flags = Flags(u="no_unicode" not in options)
    flags = flags._replace(**{letter: True for name, letter in FLAG_NAMES.items() if name in options})
    ignored = False
    while True:
        reader = Reader(text, flags, "oniguruma" in options, ignored)
        fault_found = None
        try:
            tree = reader.pattern()
        except Fault as found:
            fault_found = found
        if ignored or not reader.names or "ignore_numbered_groups_when_named_groups_exist" not in options:
            break
        ignored = True
    if fault_found:
        raise fault_found
    names = {}
    for name, number in reader.names:
        names.setdefault(name, []).append(number)
    return Read(shown(tree, reader.names), names, reader.by_number, ignored)


def fault(text, options=()):
    """The kind and the byte of the fault of a pattern; nothing where it spells a tree."""
    try:
        read(text, options)
    except Fault as found:
        return found.kind, len(text[: found.at].encode())
    return None


# ---- trees in the notation that are the same

WORD = re.compile(r' *(?:([()])|(i?"(?:[^"\\]|\\["\\nr]|\\u\{[0-9a-fA-F]{1,6}\})*")|([^ ()"]+))')
SPELLED = re.compile(r"\\(?:u\{([0-9a-fA-F]+)\}|(.))")


def unquoted(word):
    """The characters of a quoted text."""
    plain = {"n": "\n", "r": "\r"}
    text = word[word.index('"') + 1 : -1]
    return SPELLED.sub(lambda it: chr(int(it[1], 16)) if it[1] else plain.get(it[2], it[2]), text)


def literals(word):
    return [("literal", it, word.startswith("i")) for it in unquoted(word)]


def canonical(text):
    """A tree in the notation as words with their parts, the same for all that spell the same tree."""
    words = [it.group().strip(" ") for it in WORD.finditer(text)][::-1]

    def parts(word):
        while words[-1] != ")":
            if word == "cat" and words[-1].endswith('"'):
                yield from literals(words.pop())
            elif word in ("set", "iset"):
                yield unquoted(words.pop())
            else:
                yield tree()
        words.pop()

    def tree():
        word = words.pop()
        if word == "(":
            word = words.pop()
            return (word, *parts(word))
        if not word.endswith('"'):
            return (word,)
        found = literals(word)
        return found[0] if len(found) == 1 else ("cat", *found) if found else ("empty",)

    return tree()
