"""Many patterns that are searched for together."""

from __future__ import annotations

import sys
from threading import Lock
from typing import Any, Iterable, Iterator, NamedTuple, Optional

from ._errors import LimitError
from ._library import Patterns, row_width
from ._objects import Match, Pattern, RePattern, found
from ._rest import AnyString
from ._texts import STR, plain_bytes, text_of

# For how many numbers a call has room, at most, or for one match.
_MOST_ROOM = 1 << 17


class Found(NamedTuple):
    """A match of a scanner.

    index    the index of its pattern
    match    the match
    stopped  the index of the first pattern whose search exceeded a limit, or None: it may have a match that begins before this
    """

    index: int
    match: Match
    stopped: Optional[int]


class Scanner:
    """Compiled patterns that are searched for together. Of their first matches the one that begins first is found, and of
    several that begin there that of the first pattern. One thread at a time searches with a scanner; others wait.

        >>> import fancy
        >>> words = fancy.Scanner([fancy.compile('"[^"]*"'), fancy.compile("[a-z]+")])
        >>> [(found.index, found.match[0]) for found in words.scan('1 "ab" cd')]
        [(0, '"ab"'), (1, 'cd')]
    """

    __module__ = "fancy"
    __slots__ = ("patterns", "_reads", "_of_texts", "_groups", "_lock", "__weakref__")

    def __init__(self, patterns: Iterable[Pattern]) -> None:
        self.patterns = tuple(patterns)
        for pattern in self.patterns:
            if not isinstance(pattern, (Pattern, RePattern)):
                raise TypeError(f"a scanner is made of patterns that were compiled, not of {type(pattern).__name__!r}")
        kinds = {pattern._reads for pattern in self.patterns} or {STR}
        if len(kinds) > 1:
            raise TypeError("the patterns of a scanner read texts in several ways")
        (self._reads,) = kinds
        self._of_texts = {False: self._added(self.patterns)}
        self._groups = 1 + max((pattern.groups for pattern in self.patterns), default=0)
        self._lock = Lock()

    @staticmethod
    def _added(patterns: Iterable[Pattern]) -> Patterns:
        added = Patterns()
        for pattern in patterns:
            added.add(pattern._text, pattern._options)
        return added

    def _patterns_for(self, text: Any) -> Patterns:
        """The patterns, or what is searched for in their place in texts with lone surrogates."""
        if text.is_mapped not in self._of_texts:
            self._of_texts[text.is_mapped] = self._added(pattern._twin() for pattern in self.patterns)
        return self._of_texts[text.is_mapped]

    def search(self, string: AnyString, pos: int = 0, endpos: int = sys.maxsize) -> Optional[Found]:
        """The first match that begins at pos or later, or None. Raises `LimitError` if a pattern exceeded a limit and no other
        has a match."""
        return next(self._found(string, pos, endpos, 1), None)

    def scan(self, string: AnyString, pos: int = 0, endpos: int = sys.maxsize) -> Iterator[Found]:
        """An iterator over the matches, from left to right. Each search begins where the match before it ended, or one
        character further if that match was empty. Raises as `search` does."""
        return self._found(string, pos, endpos, _MOST_ROOM // row_width(self._groups))

    def _found(self, string: AnyString, pos: int, endpos: int, most: int) -> Iterator[Found]:
        """Each call has room for twice as many matches as the one before, since each searches for each pattern once more."""
        if self._reads != STR:
            # a copy of what may be written to meanwhile
            string = plain_bytes(string)
        text = text_of(string, self._reads)
        pos, endpos = text.clipped(pos), text.clipped(endpos)
        if pos > endpos:
            return
        at, end = text.byte_of(pos), text.byte_of(endpos)
        room, has_more = 1, True
        while has_more:
            with self._lock:
                patterns = self._patterns_for(text)
                rows, count, at, stopped, fault, has_more = patterns.scan(text.utf8, end, at, self._groups, room)
            yield from found(rows, count, row_width(self._groups), self.patterns, string, self._reads, pos, endpos, Found)
            if isinstance(fault, LimitError):
                raise LimitError(fault.msg, self.patterns[stopped].pattern, None, fault.name)
            if fault is not None:
                raise fault
            room = min(2 * room, max(1, most))

    def __repr__(self) -> str:
        return f"fancy.Scanner({list(self.patterns)!r})"
