"""What Python's `re` is, over this package: for programs that change one import.

    >>> from fancy import re
    >>> re.findall("a*", "aab")
    ['aa', '', '']
    >>> re.sub(r"(?P<n>\\d)(?(n)x|y)", r"<\\g<n>>", "1x2y")
    '<1>2y'

A pattern is read by the parser of the Python that runs, so it means what it means there; `error` and the flags are those of
`re`. Searches have the limits of this package, and raise its `LimitError`. Left out is the flag LOCALE where bytes beyond ASCII
are letters. A text with lone surrogates and with characters from U+10F800 on raises a UnicodeEncodeError.
"""

from __future__ import annotations

import re as _re
import sys
import warnings as _warnings
from functools import wraps as _wraps
from re import (  # noqa: F401
    A, ASCII, DEBUG, DOTALL, I, IGNORECASE, L, LOCALE, M, MULTILINE, S, U, UNICODE, VERBOSE, X, RegexFlag, error, escape,
)  # fmt: skip
from typing import Any, Dict, Iterator, List, Optional, Tuple

from ._errors import error as _refused
from ._library import Options as _Options
from ._objects import add_to_re as _add
from ._objects import ReMatch as Match
from ._objects import RePattern as Pattern
from ._objects import re_pattern as _re_pattern
from ._rest import template_text as _template_text
from ._templates import Template as _Template
from ._texts import LATIN1 as _LATIN1
from ._texts import STR as _STR
from ._translation import Writer as _Writer
from ._translation import read as _read
from ._translation import sre_parse as _parser
from ._translation import translated as _translated

NOFLAG = getattr(_re, "NOFLAG", RegexFlag(0))
if hasattr(_re, "TEMPLATE"):
    T = TEMPLATE = _re.TEMPLATE

__all__ = [
    "A", "ASCII", "DEBUG", "DOTALL", "I", "IGNORECASE", "L", "LOCALE", "M", "MULTILINE", "Match", "NOFLAG", "Pattern", "RegexFlag", "S",
    "U", "UNICODE", "VERBOSE", "X", "compile", "error", "escape", "findall", "finditer", "fullmatch", "match", "purge", "search",
    "split", "sub", "subn",
]  # fmt: skip

# ---- what is added to the objects


def _parts(read: Any) -> List[Any]:
    """The parts of a template that `re` read: texts and groups."""
    if isinstance(read, list):
        return [part for part in read if isinstance(part, int) or part]
    groups, parts = read
    parts = list(parts)
    for at, group in groups:
        parts[at] = group
    return [part for part in parts if part is not None]


def _flags_text(flags: int, is_bytes: bool) -> str:
    """The flags of a pattern, as `re` writes them."""
    if not is_bytes and flags & int(L | A | U) == U:
        flags &= ~int(U)
    names = ("TEMPLATE", "IGNORECASE", "LOCALE", "MULTILINE", "DOTALL", "UNICODE", "VERBOSE", "DEBUG", "ASCII")
    of = {"TEMPLATE": 1, "DEBUG": 128}
    parts = []
    for name in names:
        flag = of.get(name) or int(getattr(_re, name))
        if flags & flag:
            parts.append(f"re.{name}")
            flags &= ~flag
    return "|".join(parts + ([hex(flags)] if flags else []))


class _OfPattern:
    def _template(self, text: Any) -> _Template:
        templates, text = self._templates(), _template_text(text, self._reads)
        if text not in templates:
            # warnings of the parser name who calls the caller
            parts = _parts(_parser.parse_template(text, self))
            templates[text] = _Template([(part,) if isinstance(part, int) else part for part in parts])
        return templates[text]

    def _twin(self) -> Any:
        """The pattern as it is written for texts with lone surrogates."""
        if not isinstance(self.pattern, str):
            return self
        flags = int(self.flags) & ~int(DEBUG)
        with _warnings.catch_warnings():
            _warnings.simplefilter("ignore")
            text, _ = _translated(_read(self.pattern, flags), flags, is_mapped=True)
        if text == self._text:
            return self
        return _re_pattern(self.pattern, flags, _OPTIONS, text, self._names, self._is_adjacent)

    def __repr__(self) -> str:
        flags = _flags_text(self.flags, isinstance(self.pattern, bytes))
        return f"re.compile({self.pattern!r:.200}{', ' * bool(flags)}{flags})"

    def __reduce__(self) -> Tuple[Any, ...]:
        return _compiled, (self.pattern, self.flags)

    def scanner(self, string: Any, pos: int = 0, endpos: int = sys.maxsize) -> "Scans":
        """The matches one by one: `search` gives the next one, and `match` the one that follows directly."""
        return Scans._of(self, string, pos, endpos)


class _OfMatch:
    def __repr__(self) -> str:
        return f"<{type(self).__module__}.{type(self).__qualname__} object; span={self.span()}, match={self[0]!r}>"


class _Fixed(type):
    """The type of a class that cannot be changed."""

    def __setattr__(cls, name: str, value: Any) -> None:
        raise TypeError(f"cannot set {name!r} attribute of immutable type {cls.__qualname__!r}")


class Scans(metaclass=_Fixed):
    """What `Pattern.scanner` gives."""

    __slots__ = ("pattern", "_string", "_at", "_endpos", "_was_empty")

    def __new__(cls, *given: Any, **named: Any) -> "Scans":
        raise TypeError(f"cannot create '{cls.__module__}.{cls.__name__}' instances")

    @classmethod
    def _of(cls, pattern: Any, string: Any, pos: int, endpos: int) -> "Scans":
        scans = object.__new__(cls)
        scans.pattern, scans._string, scans._at, scans._endpos, scans._was_empty = pattern, string, pos, endpos, False
        return scans

    def _taken(self, found: Any) -> Any:
        if found is None:
            self._at = None
        else:
            self._at, self._was_empty = found.end(), found.start() == found.end()
        return found

    def search(self) -> Any:
        if self._at is None:
            return None
        matches = self.pattern.finditer(self._string, self._at, self._endpos)
        if self._was_empty:
            next(matches)
        return self._taken(next(matches, None))

    def match(self) -> Any:
        if self._at is None:
            return None
        at = self._at
        if not self._was_empty:
            return self._taken(self.pattern.match(self._string, at, self._endpos))
        found = self.search()
        return self._taken(found if found is not None and found.start() == at else None)


_add(_OfPattern, _OfMatch)


# ---- compiling


_OPTIONS = _Options.of(0, {})
_MOST_KEPT = 512
_kept: Dict[Tuple[Any, ...], Any] = {}


def _made(pattern: Any, items: Any, flags: int) -> Any:
    text, flags = _translated(items, flags)
    names: List[Optional[str]] = [None] * items.state.groups
    for name, number in items.state.groupdict.items():
        names[number] = name
    return _refusing(pattern, flags, text, tuple(names), items.getwidth()[0] == 0, _STR if isinstance(pattern, str) else _LATIN1)


def _refusing(pattern: Any, flags: int, text: str, *others: Any) -> Any:
    try:
        return _re_pattern(pattern, flags, _OPTIONS, text, *others)
    except _refused as fault:
        raise error(f"{fault.msg} ({fault.name}), as fancy.re writes it: {text}", pattern) from None


def _compiled(pattern: Any, flags: int = 0) -> Any:
    flags = int(flags)
    made = _kept.get((type(pattern), pattern, flags))
    if made is not None:
        return made
    if isinstance(pattern, Pattern):
        if flags:
            raise ValueError("cannot process flags argument with a compiled pattern")
        return pattern
    if not isinstance(pattern, (str, bytes)):
        raise TypeError("first argument must be string or compiled pattern")
    if flags & 1 and hasattr(_re, "template"):
        _deprecated("The re.TEMPLATE/re.T flag is deprecated as it is an undocumented flag without an obvious purpose. Don't use it.")
    made = _made(pattern, _read(pattern, flags), flags)
    if not flags & DEBUG:
        if len(_kept) >= _MOST_KEPT:
            _kept.clear()
        _kept[type(pattern), pattern, flags] = made
    return made


def _deprecated(message: str) -> None:
    _warnings.warn(message, DeprecationWarning, stacklevel=4)


def compile(pattern: Any, flags: int = 0) -> Any:
    """A pattern of `re`, compiled."""
    return _compiled(pattern, flags)


def search(pattern: Any, string: Any, flags: int = 0) -> Any:
    """The first match, or None."""
    return _compiled(pattern, flags).search(string)


def match(pattern: Any, string: Any, flags: int = 0) -> Any:
    """The match at the start of the string, or None."""
    return _compiled(pattern, flags).match(string)


def fullmatch(pattern: Any, string: Any, flags: int = 0) -> Any:
    """The match of the whole string, or None."""
    return _compiled(pattern, flags).fullmatch(string)


def finditer(pattern: Any, string: Any, flags: int = 0) -> Iterator[Any]:
    """An iterator over the matches."""
    return _compiled(pattern, flags).finditer(string)


def findall(pattern: Any, string: Any, flags: int = 0) -> List[Any]:
    """The texts of all matches, or of their groups."""
    return _compiled(pattern, flags).findall(string)


def split(pattern: Any, string: Any, maxsplit: int = 0, flags: int = 0) -> List[Any]:
    """The pieces between the matches."""
    return _compiled(pattern, flags).split(string, maxsplit)


def sub(pattern: Any, repl: Any, string: Any, count: int = 0, flags: int = 0) -> Any:
    """The string with its matches replaced."""
    return _compiled(pattern, flags).sub(repl, string, count)


def subn(pattern: Any, repl: Any, string: Any, count: int = 0, flags: int = 0) -> Any:
    """The string with its matches replaced, and how many were."""
    return _compiled(pattern, flags).subn(repl, string, count)


def _last_by_name(function: Any, places: int, count: str) -> Any:
    """A function as Python 3.13 has it: of its arguments `count` and the flags are deprecated by place."""
    name, names = function.__name__, (count, "flags")

    @_wraps(function)
    def called(*given: Any, **named: Any) -> Any:
        for of in names[: max(0, len(given) - places)]:
            if of in named:
                raise TypeError(f"{name}() got multiple values for argument {of!r}")
        if len(given) > places + 2:
            raise TypeError(f"{name}() takes from {places} to {places + 2} positional arguments but {len(given)} were given")
        if len(given) > places:
            _warnings.warn(f"{count!r} is passed as positional argument", DeprecationWarning, stacklevel=2)
        return function(*given, **named)

    return called


if sys.version_info >= (3, 13):
    sub, subn, split = _last_by_name(sub, 3, "count"), _last_by_name(subn, 3, "count"), _last_by_name(split, 2, "maxsplit")


def purge() -> None:
    """Forgets the patterns that were kept."""
    _kept.clear()


if hasattr(_re, "template"):

    def template(pattern: Any, flags: int = 0) -> Any:
        """A pattern, compiled with the flag TEMPLATE; deprecated in `re`."""
        _deprecated(
            "The re.template() function is deprecated as it is an undocumented function without an obvious purpose."
            " Use re.compile() instead."
        )
        with _warnings.catch_warnings():
            _warnings.simplefilter("ignore", DeprecationWarning)
            return _compiled(pattern, flags | TEMPLATE)


class Scanner:
    """What `re` has under this name, without a word in its documents: the tokens of a text by a list of patterns.

    Groups of a pattern capture nothing here.

        >>> Scanner([("[0-9]+", lambda scanner, token: int(token)), (r"\\s+", None)]).scan("1 22 x")
        ([1, 22], 'x')
    """

    def __init__(self, lexicon: Any, flags: int = 0) -> None:
        flags = int(flags)
        self.lexicon = lexicon
        phrases = [phrase for phrase, _ in lexicon]
        writer = _Writer(flags, captures=False)
        text = "|".join(f"({writer.sequence(_parser.parse(it, flags), flags)})" for it in phrases)
        reads = _LATIN1 if phrases and isinstance(phrases[0], bytes) else _STR
        self.scanner = _refusing(None, flags, text, (None,) * (len(phrases) + 1), True, reads)
        self.match: Any = None

    def scan(self, string: Any) -> Tuple[List[Any], Any]:
        """What the actions of the patterns return for each token, and what is left of the text."""
        found, at = [], 0
        while True:
            token = self.scanner.match(string, at)
            if token is None or token.end() == at:
                return found, string[at:]
            action = self.lexicon[token.lastindex - 1][1]
            if callable(action):
                self.match = token
                action = action(self, token.group())
            if action is not None:
                found.append(action)
            at = token.end()
