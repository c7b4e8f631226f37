"""Trees and the reader of their notation."""

import re
from dataclasses import dataclass, field

UNSET = 2**64 - 1  # as the greatest count of a loop: no bound


@dataclass(eq=False)
class Node:
    """A node: its kind, its children in order, and what else its kind has."""

    kind: str
    children: list = field(default_factory=list)
    text: str = ""  # a literal's character, the characters of bytes, a class text, an assertion's name, a verb
    folded: bool = False
    crlf: bool = False
    number: int = 0  # the group that is named
    lo: int = 0
    hi: int = 0
    lazy: bool = False
    ahead: bool = False
    negative: bool = False

    # by the analysis
    start_group: int = 0
    end_group: int = 0
    look: str = ""  # the innermost look-around that it is in: "ahead", "behind" or none
    size: tuple = ()
    hard: bool = False
    at_start: bool = False

    def walk(self):
        """The node and all below it, in the order of the tree."""
        yield self
        for child in self.children:
            yield from child.walk()


class Fault(Exception):
    """A text that spells no tree."""


ATOMS = {
    "empty": ("empty", {}),
    "dot": ("any", {"text": "AnyNoNL"}),
    "dotcrlf": ("any", {"text": "AnyNoCRLF"}),
    "any": ("any", {"text": "Any"}),
    "nl": ("newline", {"text": "Newline"}),
    "nlascii": ("newline", {"text": "Newline"}),
    "keep": ("keep", {}),
    "cont": ("cont", {}),
    "absclear": ("absclear", {}),
}

ASSERTIONS = {
    "start": "StartText",
    "end": "EndText",
    "endnl": "EndTextIgnoreTrailingNewlines",
    "bol": "StartLine",
    "obol": "StartLineOniguruma",
    "eol": "EndLine",
    "wstart": "LeftWordBoundary",
    "wend": "RightWordBoundary",
    "whstart": "LeftWordHalfBoundary",
    "whend": "RightWordHalfBoundary",
    "wb": "WordBoundary",
    "nwb": "NotWordBoundary",
}
WITH_CRLF = {"endcrlf": "endnl", "bolcrlf": "bol", "obolcrlf": "obol", "eolcrlf": "eol"}

LOOKS = {
    "ahead": {"ahead": True},
    "nahead": {"ahead": True, "negative": True},
    "behind": {},
    "nbehind": {"negative": True},
}
# words with this many children
BRANCHES = {"grp": 1, "atom": 1, "define": 1, "absent": 1, "absstop": 1, "absexp": 2, "if": 3}

TOKEN = re.compile(r' *(?:([()])|(i?"(?:[^"\\]|\\["\\nr]|\\u\{[0-9a-fA-F]{1,6}\})*")|([^ ()"]+))')
ESCAPE = re.compile(r"\\(?:u\{([0-9a-fA-F]+)\}|(.))")


def unescape(match):
    code, letter = match.groups()
    return chr(int(code, 16)) if code else {"n": "\n", "r": "\r"}.get(letter, letter)


class Reader:
    def __init__(self, text):
        self.tokens = []
        at = 0
        text = text.rstrip(" ")
        while at < len(text):
            match = TOKEN.match(text, at)
            if not match:
                raise Fault(text)
            self.tokens.append(match.group().strip(" "))
            at = match.end()
        self.tokens.reverse()

    def next(self):
        if not self.tokens:
            raise Fault("too short")
        return self.tokens.pop()

    def peek(self):
        return self.tokens[-1] if self.tokens else ""

    def literals(self):
        """The literals of a quoted text, or nothing where none is next."""
        token = self.peek()
        if not token.endswith('"'):
            return None
        self.next()
        folded = token.startswith("i")
        characters = ESCAPE.sub(unescape, token[folded + 1 : -1])
        return [Node("literal", text=character, folded=folded) for character in characters]

    def number(self):
        token = self.next()
        if not re.fullmatch("[0-9]+", token) or int(token) > UNSET:
            raise Fault(token)
        return int(token)

    def quoted(self):
        token = self.next()
        if not token.startswith('"'):
            raise Fault(token)
        return ESCAPE.sub(unescape, token[1:-1])

    def tree(self):
        literals = self.literals()
        if literals is not None:
            return only(literals)
        token = self.next()
        if token == "(":
            node = self.form(self.next())
            if self.next() != ")":
                raise Fault("bracket")
            return node
        if token in ATOMS:
            kind, fields = ATOMS[token]
            return Node(kind, **fields)
        crlf = token in WITH_CRLF
        name = WITH_CRLF.get(token, token)
        if name not in ASSERTIONS:
            raise Fault(token)
        return Node("assertion", text=ASSERTIONS[name], crlf=crlf)

    def trees(self, in_sequence):
        """The trees up to the bracket that closes; in a sequence a quoted text gives its literals."""
        found = []
        while self.peek() != ")":
            literals = self.literals() if in_sequence else None
            if literals is None:
                found.append(self.tree())
            else:
                found += literals if len(literals) > 1 else [only(literals)]
        return found

    def form(self, word):
        if word == "cat":
            return Node("cat", self.trees(True))
        if word == "alt":
            branches = self.trees(False)
            if not branches:
                raise Fault(word)
            return Node("alt", branches)
        if word in LOOKS:
            return Node("look", [self.tree()], **LOOKS[word])
        if word in BRANCHES:
            return Node(word, [self.tree() for _ in range(BRANCHES[word])])
        return self.numbers(word)

    def numbers(self, word):
        """A form that has numbers or a text."""
        if word in ("rep", "lazy"):
            lo = self.number()
            hi = UNSET if self.peek() == "*" and self.next() else self.number()
            if lo >= UNSET or hi < lo:
                raise Fault(word)
            return Node("rep", [self.tree()], lo=lo, hi=hi, lazy=word == "lazy")
        if word in ("set", "iset"):
            text = self.quoted()
            if not text:
                raise Fault(word)
            return Node("set", text=text, folded=word == "iset")
        if word == "bytes":
            codes = []
            while self.peek() != ")":
                codes.append(chr(self.number()))
            return Node("bytes", text="".join(codes))
        if word in ("ref", "iref", "has", "call"):
            kind = "ref" if word == "iref" else word
            return Node(kind, number=self.number(), folded=word == "iref")
        if word in ("reflevel", "haslevel"):
            number = self.number()
            self.next()
            return Node(word, number=number)
        if word == "verb":
            return Node("verb", text=self.next())
        raise Fault(word)


def only(literals):
    """One node of the literals of a quoted text."""
    if not literals:
        return Node("empty")
    return literals[0] if len(literals) == 1 else Node("cat", literals)


def read(text):
    """The tree that the text spells."""
    reader = Reader(text)
    tree = reader.tree()
    if reader.tokens:
        raise Fault("longer")
    return tree
