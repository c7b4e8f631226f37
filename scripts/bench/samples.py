"""Texts that a pattern matches, made from the pattern by a source of chance, as far as Python's `re` reads it."""
import re
import warnings
from functools import lru_cache

try:
    from re import _parser as parser
except ImportError:
    import sre_parse as parser

CLASSES = {
    "alnum": "A-Za-z0-9", "alpha": "A-Za-z", "digit": "0-9", "lower": "a-z", "upper": "A-Z", "punct": "!-/:-@", "space": " ",
    "xdigit": "0-9a-f", "word": r"\w", "blank": " ", "print": " -~", "graph": "!-~",
}
LETTERS = [chr(it) for it in range(32, 127)]
CATEGORIES = {"DIGIT": r"\d", "SPACE": r"\s", "WORD": r"\w"}


def holds(kind, value, letter):
    """Whether an item of a class has a letter, whether the class is negated or not."""
    if kind in ("LITERAL", "NOT_LITERAL"):
        return ord(letter) == value
    if kind == "RANGE":
        return value[0] <= ord(letter) <= value[1]
    if kind == "CATEGORY":
        name = str(value).split("_")
        return bool(re.match(CATEGORIES[name[-1]], letter)) != ("NOT" in name)
    return kind == "ANY"


@lru_cache(maxsize=None)
def fitting(items):
    """The letters of a class."""
    kinds = [(str(kind), value) for kind, value in items]
    negated = any(kind in ("NEGATE", "NOT_LITERAL") for kind, _ in kinds)
    return [it for it in LETTERS if any(holds(*item, it) for item in kinds) != negated] or [" "]


class Sampler:
    """Makes a text of each node of a pattern. What look-arounds ask is left out, so some texts do not match."""

    def __init__(self, source):
        self.source = source
        self.groups = {}

    def seq(self, nodes):
        return "".join(self.one(str(kind), value) for kind, value in nodes)

    def one(self, kind, value):
        if kind == "LITERAL":
            return chr(value)
        if kind in ("NOT_LITERAL", "ANY", "IN"):
            return self.source.choice(fitting(tuple(value) if kind == "IN" else ((kind, value),)))
        if kind == "BRANCH":
            return self.seq(self.source.choice(value[1]))
        if kind == "SUBPATTERN":
            self.groups[value[0]] = self.seq(value[3])
            return self.groups[value[0]]
        if kind.endswith("_REPEAT"):
            least, most, body = value
            return "".join(self.seq(body) for _ in range(self.source.randint(least, min(int(most), least + 4))))
        if kind == "GROUPREF":
            return self.groups.get(value, "")
        if kind == "GROUPREF_EXISTS":
            return self.seq(value[1] if self.groups.get(value[0]) else value[2] or [])
        return self.seq(value) if kind == "ATOMIC_GROUP" else ""


@lru_cache(maxsize=None)
def parsed(pattern):
    """What Python reads a pattern as, with the classes of POSIX spelled out; None if it does not read it."""
    spelled = re.sub(r"\[:(\w+):\]", lambda it: CLASSES.get(it[1], " "), pattern)
    with warnings.catch_warnings():
        warnings.simplefilter("ignore")
        try:
            return parser.parse(spelled)
        except (re.error, OverflowError, RecursionError):
            return None


def sample(pattern, source):
    """A text that the pattern matches as a rule; None if Python does not read the pattern."""
    nodes = parsed(pattern)
    return None if nodes is None else Sampler(source).seq(nodes)
