"""Regular expressions by the names of `re`, over the shared library of a backtracking engine whose answers are proved.

    >>> import fancy
    >>> fancy.search(r"(?<=\\$)(?<number>[0-9]+)", "cost $42").groupdict()
    {'number': '42'}

The syntax is that of fancy-regex: `(?~ )`, `\\g<name>`, `(?>..)`, `\\K`, `\\p{Greek}` and nested classes are there. Offsets are
in characters, from 0. README.md says what differs from `re`.

Bytes are searched by patterns that are bytes, as `re` does: each byte is the character with its number, and only ASCII letters
are letters. With the option `utf8` of `compile` they are UTF-8. Offsets are in bytes then.

A pattern that cannot be read, or is refused, raises `error`. A search that exceeds a limit raises `LimitError`, which is an
`error` too. Out of memory is `MemoryError`. Lone surrogates are searched as the characters U+10F800 to U+10FFFF.
"""

from __future__ import annotations

from functools import lru_cache
from typing import Any, Iterator, List, Optional, Tuple, Union

from ._errors import LimitError, error
from ._flags import RegexFlag
from ._library import VERSION as __version__
from ._library import version
from ._objects import Match, Pattern, compiled, forget
from ._rest import AnyString, Replacement, made
from ._scanner import Found, Scanner
from ._texts import plain, plain_bytes, whole_number

__all__ = [
    "A", "ASCII", "DOTALL", "Found", "I", "IGNORECASE", "LimitError", "M", "MULTILINE", "Match", "NOFLAG", "Pattern", "RegexFlag", "S",
    "Scanner", "U", "UNICODE", "VERBOSE", "X", "compile", "error", "escape", "findall", "finditer", "fullmatch", "match", "purge",
    "search", "split", "sub", "subn", "version",
]  # fmt: skip

NOFLAG = RegexFlag.NOFLAG
A = ASCII = RegexFlag.ASCII
I = IGNORECASE = RegexFlag.IGNORECASE  # noqa: E741
M = MULTILINE = RegexFlag.MULTILINE
S = DOTALL = RegexFlag.DOTALL
U = UNICODE = RegexFlag.UNICODE
X = VERBOSE = RegexFlag.VERBOSE

AnyPattern = Union[str, bytes, Pattern]
# as plain numbers, which cost less than flags
_ASCII, _UNICODE, _KNOWN = int(A), int(U), int(A | I | M | S | U | X)


@lru_cache(maxsize=512)
def _kept(kind: type, pattern: AnyString, flags: int) -> Pattern:
    return made(pattern, flags, {})


def _plain(pattern: Any) -> AnyString:
    if isinstance(pattern, str):
        return plain(pattern)
    if isinstance(pattern, bytes):
        return plain_bytes(pattern)
    raise TypeError(f"a pattern is a string or bytes, not {type(pattern).__name__!r}")


def compile(pattern: AnyPattern, flags: int = 0, **options: Any) -> Pattern:
    """Compiles a pattern, of a string or of bytes. The flags are A, I, M, S, U and X. A `Pattern` is returned as it is.

    Limits of a search, as options by name:

        backtrack_limit  how often it may backtrack to a branch; 20,000,000, and one more for each byte of the text and its end
        step_limit       how many instructions it may execute; 100,000,000, and eight more for each byte and the end
        visit_limit      how many states it may visit in parts that an automaton searches; 20,000,000, some 3 s at worst
        memory_limit     how many bytes it may keep there, and again for its branches; 268,435,456 (256 MiB)

    Limits of a pattern:

        max_prog_size    how many instructions its program may have; 100,000
        max_nesting      how many nodes may nest in one another, with calls written out; 500, for a stack of 1 MB
        analysis_limit   how many nodes the analysis may look at in rounds that change something; 5,000,000

    0 is no limit for visit_limit, memory_limit and analysis_limit. Options that are true or false, and false by default:
    find_not_empty (a match is not empty), leftmost_longest (the longest match at the earliest start, not the first one), and
    crlf, swap_greed, oniguruma and ignore_numbered_groups_when_named_groups_exist, as RegexBuilder of fancy-regex has them.

    And utf8, of a pattern of bytes: it is UTF-8, and so are the bytes that are searched. Each sequence of these that is no UTF-8
    reads as one U+FFFD; a position inside a character is that of the next one.

    Raises `error`, with `pos`, if the pattern cannot be read or is refused, ValueError for unknown flags, and UnicodeError for a
    pattern of bytes that is no UTF-8 and should be, or of a string with lone surrogates and with what stands for them.

        >>> import fancy
        >>> fancy.compile("[a-z]+", fancy.I, step_limit=1_000_000).search("7 Apples").span()
        (2, 8)
        >>> fancy.compile("é+".encode(), utf8=True).search(b"\\xff caf\\xc3\\xa9").span()
        (5, 7)
    """
    if isinstance(pattern, Pattern):
        if flags or options:
            raise ValueError("cannot process flags or options with a compiled pattern")
        return pattern
    pattern, flags = _plain(pattern), whole_number(flags)
    is_unicode = isinstance(pattern, str) or bool(options.get("utf8"))
    if flags & ~_KNOWN:
        raise ValueError(f"unknown flags: {flags & ~_KNOWN}")
    if flags & _ASCII and flags & _UNICODE:
        raise ValueError("ASCII and UNICODE flags are incompatible")
    if flags & _UNICODE and not is_unicode:
        raise ValueError("cannot use UNICODE flag with a bytes pattern")
    flags |= _UNICODE if is_unicode and not flags & _ASCII else 0
    return made(pattern, flags, options) if options else _kept(type(pattern), pattern, flags)


def search(pattern: AnyPattern, string: AnyString, flags: int = 0) -> Optional[Match]:
    """The first match of the pattern in the string, or None. See `Pattern.search`."""
    return compiled(pattern, flags).search(string)


def match(pattern: AnyPattern, string: AnyString, flags: int = 0) -> Optional[Match]:
    """The match at the start of the string, or None. See `Pattern.match`."""
    return compiled(pattern, flags).match(string)


def fullmatch(pattern: AnyPattern, string: AnyString, flags: int = 0) -> Optional[Match]:
    """The match of the whole string, or None. See `Pattern.fullmatch`."""
    return compiled(pattern, flags).fullmatch(string)


def finditer(pattern: AnyPattern, string: AnyString, flags: int = 0) -> Iterator[Match]:
    """An iterator over the matches, from left to right. See `Pattern.finditer`."""
    return compiled(pattern, flags).finditer(string)


def findall(pattern: AnyPattern, string: AnyString, flags: int = 0) -> List[Any]:
    """The texts of all matches, or of their groups, as a list. See `Pattern.findall`."""
    return compiled(pattern, flags).findall(string)


def split(pattern: AnyPattern, string: AnyString, maxsplit: int = 0, flags: int = 0) -> List[Optional[AnyString]]:
    """The pieces of the string between the matches, as a list. See `Pattern.split`."""
    return compiled(pattern, flags).split(string, maxsplit)


def sub(pattern: AnyPattern, repl: Replacement, string: AnyString, count: int = 0, flags: int = 0) -> AnyString:
    """The string with its matches replaced. See `Pattern.sub`."""
    return compiled(pattern, flags).sub(repl, string, count)


def subn(pattern: AnyPattern, repl: Replacement, string: AnyString, count: int = 0, flags: int = 0) -> Tuple[AnyString, int]:
    """The string with its matches replaced, and how many were. See `Pattern.subn`."""
    return compiled(pattern, flags).subn(repl, string, count)


_SPECIAL = {ord(letter): "\\" + letter for letter in "()[]{}?*+-|^$\\.&~# \t\n\r\v\f"}


def escape(pattern: AnyString) -> AnyString:
    """The pattern that matches a text as it is, under all flags: what `re.escape` returns.

        >>> import fancy
        >>> print(fancy.escape("1+1"))
        1\\+1
    """
    pattern = _plain(pattern)
    if isinstance(pattern, bytes):
        return pattern.decode("latin-1").translate(_SPECIAL).encode("latin-1")
    return pattern.translate(_SPECIAL)


def purge() -> None:
    """Forgets the patterns that `compile` kept, and the strings of the last searches."""
    _kept.cache_clear()
    forget()
