"""Patterns as Python's `re` reads them, written as patterns of this package.

The pattern is read by the parser of the Python that runs. What it read is written without flags: each letter that is matched
without regard to case as the class of those that `re` takes for it, each class, anchor and boundary as `re` defines it.
"""

from __future__ import annotations

import locale
import re
import sys
from functools import lru_cache
from typing import Any, Callable, Dict, Iterable, List, Optional, Tuple

import _sre

from ._texts import MAPPED

try:
    from re import _compiler as sre_compile
    from re import _constants as constants
    from re import _parser as sre_parse
except ImportError:
    import sre_compile
    import sre_constants as constants
    import sre_parse

FIXES: Dict[int, Tuple[int, ...]] = getattr(sre_compile, "_EXTRA_CASES", None) or getattr(sre_compile, "_ignorecase_fixes")
MAXCODE = getattr(sre_compile, "MAXCODE", 2**32 - 1)
LAST = 0x10FFFF
# as plain numbers, which cost less than flags
ASCII, DEBUG, DOTALL, IGNORECASE, LOCALE, MULTILINE, UNICODE = map(
    int, (re.ASCII, re.DEBUG, re.DOTALL, re.IGNORECASE, re.LOCALE, re.MULTILINE, re.UNICODE)
)

# What is in a class for a category, under Unicode and under ASCII, and what is not in it.
DIGITS, SPACES, WORDS = (r"\p{Nd}", "0-9"), (r"\s\x{1c}-\x{1f}", r"\x{9}-\x{d}\x{20}"), (r"\p{L}\p{N}_", "0-9A-Za-z_")
CATEGORIES = {
    "CATEGORY_DIGIT": (DIGITS, False),
    "CATEGORY_NOT_DIGIT": (DIGITS, True),
    "CATEGORY_SPACE": (SPACES, False),
    "CATEGORY_NOT_SPACE": (SPACES, True),
    "CATEGORY_WORD": (WORDS, False),
    "CATEGORY_NOT_WORD": (WORDS, True),
}
ESCAPES = dict(zip(CATEGORIES, (rb"\d", rb"\D", rb"\s", rb"\S", rb"\w", rb"\W")))
PLAIN_CODES = ("UTF-8", "ANSI_X3.4-1968", "US-ASCII")
NOTHING, ANYTHING = r"[^\x{0}-\x{10ffff}]", "(?s:.)"
# Before 3.14 `\\B` did not hold in an empty text.
NO_BOUNDARY = "" if sys.version_info >= (3, 14) else r"(?!\A\z)"


@lru_cache(maxsize=None)
def cases(is_ascii: bool) -> Dict[int, Tuple[int, ...]]:
    """For each character that has them, the characters that `re` takes for it without regard to case, itself among them."""
    lower = _sre.ascii_tolower if is_ascii else _sre.unicode_tolower
    by_lower: Dict[int, List[int]] = {}
    # beyond these planes no character has a case
    for code in range(128 if is_ascii else 0x20000):
        by_lower.setdefault(lower(code), []).append(code)
    fixes = {} if is_ascii else FIXES
    same: Dict[int, Tuple[int, ...]] = {}
    for low, codes in by_lower.items():
        group = [*codes, *(code for other in fixes.get(low, ()) for code in by_lower.get(other, ()))]
        if len(group) > 1:
            same.update(dict.fromkeys(codes, tuple(sorted(group))))
    return same


def written(code: int) -> str:
    """A character, outside of a class or in one."""
    letter = chr(code)
    return letter if letter.isascii() and letter.isalnum() else f"\\x{{{code:x}}}"


def ranges(items: Iterable[Tuple[int, int]], is_mapped: bool) -> str:
    """Ranges of characters in a class. A text has no surrogates, so they are left out; or it has, and they are others."""
    parts = []
    for first, last in items:
        if first == last and not is_surrogate(first, is_mapped):
            parts.append(written(first))
            continue
        others = (max(first, 0xD800) + MAPPED - 0xD800, min(last, 0xDFFF) + MAPPED - 0xD800) if is_mapped else (1, 0)
        for low, high in ((first, min(last, 0xD7FF)), (max(first, 0xE000), min(last, MAPPED - 1 if is_mapped else LAST)), others):
            if low <= high:
                parts.append(written(low) + ("" if low == high else "-" + written(high)))
    return "".join(parts)


def is_surrogate(code: int, is_mapped: bool) -> bool:
    """Whether a character is a surrogate, or is one of those that stand for them."""
    return 0xD800 <= code <= 0xDFFF or is_mapped and code >= MAPPED


def has_byte(items: List[Tuple[Any, Any]], code: int) -> bool:
    """Whether a byte is in a class of bytes, with regard to case."""
    is_in = False
    for op, value in items:
        if op is constants.CATEGORY:
            is_in |= re.match(ESCAPES[str(value)], bytes([code])) is not None
        elif op is not constants.NEGATE:
            first, last = (value, value) if op is constants.LITERAL else value
            is_in |= first <= code <= last
    return is_in != any(op is constants.NEGATE for op, _ in items)


def either_case(items: List[Tuple[Any, Any]]) -> List[Tuple[Any, Any]]:
    """The bytes that a class takes without regard to case under LOCALE: those of which either case is in it. So `[^ab]` takes an
    `a` there, since it takes an `A`."""
    cases = (f"{chr(code)}{chr(code).swapcase() if code < 128 else ''}" for code in range(256))
    return [(constants.LITERAL, ord(it[0])) for it in cases if any(has_byte(items, ord(letter)) for letter in it)]


class Writer:
    """Writes what the parser read. `flags` are those of the pattern; it may be written for texts with lone surrogates."""

    def __init__(self, flags: int, is_mapped: bool = False, captures: bool = True) -> None:
        self.flags = flags
        self.is_mapped = is_mapped
        self.captures = captures

    # ---- characters

    def letters(self, first: int, last: int, flags: int) -> List[Tuple[int, int]]:
        """What a character or a range stands for."""
        found = [(first, last)]
        if flags & IGNORECASE:
            same = cases(not flags & UNICODE)
            codes = same if last - first > len(same) else range(first, last + 1)
            found += [(code, code) for it in codes if first <= it <= last for code in same.get(it, ()) if not first <= code <= last]
        return found

    def category(self, name: str, flags: int) -> str:
        """A category in a class."""
        of, is_not = CATEGORIES[name]
        inner = of[not flags & UNICODE]
        return f"[^{inner}]" if is_not else inner

    def a_class(self, items: List[Tuple[Any, Any]], flags: int) -> str:
        negated, inner = False, ""
        for op, value in items:
            if op is constants.NEGATE:
                negated = True
            elif op is constants.CATEGORY:
                inner += self.category(str(value), flags)
            else:
                first, last = (value, value) if op is constants.LITERAL else value
                inner += ranges(self.letters(first, last, flags), self.is_mapped)
        if not inner:
            return ANYTHING if negated else NOTHING
        return f"[{'^' if negated else ''}{inner}]"

    def one_of(self, items: List[Tuple[Any, Any]], flags: int) -> str:
        """A class that is written in brackets."""
        if flags & LOCALE and flags & IGNORECASE:
            return self.a_class(either_case(items), flags & ~IGNORECASE)
        return self.a_class(items, flags)

    # ---- places

    def boundary(self, flags: int) -> str:
        """A place that has a word on one side."""
        word = WORDS[not flags & UNICODE]
        return f"(?:(?<=[{word}])(?![{word}])|(?<![{word}])(?=[{word}]))"

    def place(self, at: str, flags: int) -> str:
        if at == "AT_BEGINNING":
            return r"(?m:^)" if flags & MULTILINE else r"\A"
        if at == "AT_END":
            return r"(?m:$)" if flags & MULTILINE else r"(?=\x{a}?\z)"
        if at == "AT_BOUNDARY":
            return self.boundary(flags)
        if at == "AT_NON_BOUNDARY":
            return f"{NO_BOUNDARY}(?!{self.boundary(flags)})"
        return {"AT_BEGINNING_STRING": r"\A", "AT_END_STRING": r"\z"}[at]

    # ---- what holds others

    def repeat(self, kind: str, least: int, most: Any, items: Any, flags: int) -> str:
        body, is_lazy = self.sequence(items, flags), kind == "MIN_REPEAT"
        if items.getwidth()[1] == 0 or most == 0:
            # once is as good as often
            if least > 0 or most == 0:
                return f"(?:{body})" if most != 0 else ""
            return f"(?:|{body})" if is_lazy else f"(?:{body}|)"
        counts = f"{{{least},{'' if most is constants.MAXREPEAT else most}}}"
        text = f"(?:{body}){counts}{'?' if is_lazy else ''}"
        return f"(?>{text})" if kind == "POSSESSIVE_REPEAT" else text

    def group(self, number: Optional[int], added: int, removed: int, items: Any, flags: int) -> str:
        types = ASCII | UNICODE | LOCALE
        flags = (flags & ~types if added & types else flags) | added
        body = self.sequence(items, flags & ~removed)
        return f"({'' if number is not None and self.captures else '?:'}{body})"

    def condition(self, number: int, yes: Any, no: Any, flags: int) -> str:
        self.refer()
        otherwise = "" if no is None else self.sequence(no, flags)
        return f"(?({number})(?:{self.sequence(yes, flags)})|(?:{otherwise}))"

    def look(self, opening: str, value: Any, flags: int) -> str:
        direction, items = value
        least, most = items.getwidth()
        if direction < 0 and (least != most or least > MAXCODE):
            # the only faults that `re` finds after it read a pattern
            raise re.error("looks too much behind" if least > MAXCODE else "look-behind requires fixed-width pattern")
        return f"(?{'<' if direction < 0 else ''}{opening}(?>{self.sequence(items, flags)}))"

    def refer(self) -> None:
        if not self.captures:
            raise re.error("a pattern of a Scanner has no references to groups")

    def reference(self, number: int, flags: int) -> str:
        self.refer()
        return f"(?i:\\{number})" if flags & IGNORECASE else f"(?:\\{number})"

    def item(self, op: Any, value: Any, flags: int) -> str:
        if op is constants.LITERAL:
            is_class = flags & IGNORECASE or is_surrogate(value, self.is_mapped)
            return self.a_class([(op, value)], flags) if is_class else written(value)
        if op is constants.NOT_LITERAL:
            return self.a_class([(constants.NEGATE, None), (constants.LITERAL, value)], flags)
        if op is constants.ANY:
            return ANYTHING if flags & DOTALL else r"[^\x{a}]"
        return WRITERS[str(op)](self, value, flags)

    def sequence(self, items: Any, flags: int) -> str:
        return "".join(self.at(items, place, flags) for place in range(len(items)))

    def at(self, items: Any, place: int, flags: int) -> str:
        """An item of several. Of a boundary that has a character of a word beside it, the other side is asked."""
        op, value = items[place]
        if op is constants.AT and value is constants.AT_BOUNDARY:
            word = WORDS[not flags & UNICODE]
            if place + 1 < len(items) and is_word(items[place + 1], True):
                return f"(?<![{word}])"
            if place > 0 and is_word(items[place - 1], False):
                return f"(?![{word}])"
        return self.item(op, value, flags)


def is_word(item: Any, at_start: bool) -> bool:
    """Whether all that an item matches begins, or ends, with a character of a word. If not, it may do so all the same."""
    op, value = item
    name = str(op)
    if name == "LITERAL":
        return chr(value).isascii() and (chr(value).isalnum() or value == ord("_"))
    if name == "IN":
        return all(is_word(it, at_start) for it in value)
    if name == "RANGE":
        low, high = value
        return any(first <= low and high <= last for first, last in ((48, 57), (65, 90), (97, 122)))
    if name == "CATEGORY":
        return str(value) in ("CATEGORY_WORD", "CATEGORY_DIGIT")
    if name == "SUBPATTERN" and not (value[1] or value[2]):
        inner = value[3]
    elif name in ("MAX_REPEAT", "MIN_REPEAT", "POSSESSIVE_REPEAT") and value[0] > 0:
        inner = value[2]
    elif name == "BRANCH":
        return all(len(it) > 0 and is_word(it[0 if at_start else -1], at_start) for it in value[1])
    else:
        return False
    return len(inner) > 0 and is_word(inner[0 if at_start else -1], at_start)


# How each of the others is written.
WRITERS: Dict[str, Callable[[Writer, Any, int], str]] = {
    "IN": Writer.one_of,
    "AT": lambda to, at, flags: to.place(str(at), flags),
    "BRANCH": lambda to, value, flags: "(?:" + "|".join(to.sequence(it, flags) for it in value[1]) + ")",
    "SUBPATTERN": lambda to, value, flags: to.group(*value, flags),
    "MAX_REPEAT": lambda to, value, flags: to.repeat("MAX_REPEAT", *value, flags),
    "MIN_REPEAT": lambda to, value, flags: to.repeat("MIN_REPEAT", *value, flags),
    "POSSESSIVE_REPEAT": lambda to, value, flags: to.repeat("POSSESSIVE_REPEAT", *value, flags),
    "ATOMIC_GROUP": lambda to, items, flags: f"(?>{to.sequence(items, flags)})",
    "GROUPREF": Writer.reference,
    "GROUPREF_EXISTS": lambda to, value, flags: to.condition(*value, flags),
    "ASSERT": lambda to, value, flags: to.look("=", value, flags),
    "ASSERT_NOT": lambda to, value, flags: to.look("!", value, flags),
    "FAILURE": lambda to, value, flags: NOTHING,
}


def read(pattern: Any, flags: int) -> Any:
    """What the parser reads. Raises what `re.compile` raises; warnings name who calls the caller of the caller."""
    return sre_parse.parse(pattern, flags)


def translated(items: Any, flags: int, is_mapped: bool = False) -> Tuple[str, int]:
    """The text of a pattern that was read, and its flags. Raises what `re.compile` raises."""
    flags |= items.state.flags
    if flags & DEBUG:
        # prints its own program
        sre_compile.compile(items, flags)
    if flags & LOCALE and locale.nl_langinfo(locale.CODESET) not in PLAIN_CODES:
        raise re.error("the flag LOCALE is only there where bytes beyond ASCII are no letters, as in UTF-8")
    return Writer(flags, is_mapped).sequence(items, flags), flags
