"""Compiled patterns, and their matches, by ctypes: where the extension is not there."""

from __future__ import annotations

import sys
from typing import Any, Dict, Iterator, List, Optional, Tuple

from ._flags import RegexFlag
from ._library import ROW_SPANS, UNSET, Options, Program, Cursor
from ._rest import AnyString, Group, MatchRest, PatternRest, Replacement, add, numbered
from ._texts import STR, forget_texts, piece, text_of, whole_number

# For how many numbers a call has room, at most, or for one match.
_MOST_ROOM = 1 << 17


class Match(MatchRest):
    __doc__ = MatchRest.__doc__

    __module__ = "fancy"
    __slots__ = ("re", "string", "pos", "endpos", "regs", "_text")

    def __init__(self, pattern: "Pattern", string: AnyString, text: Any, pos: int, endpos: int, spans: List[int]) -> None:
        self.re = pattern
        self.string = string
        self.pos = pos
        self.endpos = endpos
        self._text = text
        places = [-1 if byte == UNSET else text.place_of(byte) for byte in spans]
        self.regs: Tuple[Tuple[int, int], ...] = tuple(zip(places[::2], places[1::2]))

    def _number(self, group: Group) -> int:
        """The number of a group; of several with one name, the first that is set."""
        if isinstance(group, str):
            numbers = self.re._numbers.get(group, ())
            for number in numbers:
                if self.regs[number][0] >= 0:
                    return number
            number = numbers[0] if numbers else -1
        else:
            number = whole_number(group) if hasattr(group, "__index__") else -1
        if not 0 <= number < len(self.regs):
            raise IndexError("no such group")
        return number

    def _text_of(self, number: int, default: Any = None) -> Any:
        start, end = self.regs[number]
        return piece(self.string, self._text, start, max(start, end)) if start >= 0 else default

    def __getitem__(self, group: Group) -> Optional[AnyString]:
        return self._text_of(self._number(group))

    def group(self, *groups: Group) -> Any:
        """The text of a group, or None if it is not set; a tuple of several. Group 0, the default, is the match.

            >>> import fancy
            >>> fancy.search(r"(?<year>\\d+)-(\\d+)", "on 2026-11").group("year", 2)
            ('2026', '11')
        """
        if len(groups) == 1:
            return self[groups[0]]
        return tuple(map(self.__getitem__, groups)) if groups else self[0]

    def groups(self, default: Any = None) -> Tuple[Any, ...]:
        """The texts of all groups from 1 on, with the default for a group that is not set."""
        return tuple(self._text_of(number, default) for number in range(1, len(self.regs)))

    def groupdict(self, default: Any = None) -> Dict[str, Any]:
        """The text of each name, with the default for a group that is not set."""
        return {name: self._text_of(self._number(name), default) for name in self.re.groupindex}

    def start(self, group: Group = 0) -> int:
        """Where a group begins; -1 if it is not set."""
        return self.span(group)[0]

    def end(self, group: Group = 0) -> int:
        """Where a group ends; -1 if it is not set."""
        return self.span(group)[1]

    def span(self, group: Group = 0) -> Tuple[int, int]:
        """Start and end of a group; (-1, -1) if it is not set."""
        return self.regs[self._number(group)]

    @property
    def lastindex(self) -> Optional[int]:
        """The number of the group that closed last; None if none is set. It is the last one in the pattern, of those in one
        loop the one that ends last in the text, or else begins last, and of those in one another the outer one."""
        closings = self.re._reading().closings(self.re.groups)
        numbers = [number for number in range(1, len(self.regs)) if self.regs[number][0] >= 0]
        if not numbers:
            return None
        last = max(numbers, key=lambda it: (closings[it].loop, *reversed(self.regs[it]), closings[it].closed))
        return max(numbers, key=lambda it: closings[it].closed if closings[it].encloses(closings[last]) else -1)

    @property
    def lastgroup(self) -> Optional[str]:
        """The name of the group `lastindex`, or None."""
        last = self.lastindex
        return next((name for name, numbers in self.re._numbers.items() if last in numbers), None)


class Pattern(PatternRest):
    __doc__ = PatternRest.__doc__

    __module__ = "fancy"
    __slots__ = (
        "pattern", "flags", "groups", "groupindex", "_text", "_options", "_names", "_numbers", "_is_adjacent", "_reads",
        "_programs", "_cache", "__weakref__",
    )  # fmt: skip

    def __init__(
        self, pattern: Any, flags: int, options: Any, text: Optional[str] = None, names: Any = None, adjacent: bool = False,
        reads: int = STR,
    ) -> None:  # fmt: skip
        """The text is what is compiled, if that is not the pattern as it is; `reads` is how texts are read. The names of the
        groups, and whether an empty match may follow directly after another, are of the module `re`."""
        self.pattern = pattern
        self.flags = flags
        self._text: str = pattern if text is None else text
        self._options = options if isinstance(options, Options) else Options.of(RegexFlag(flags), options)
        self._is_adjacent = adjacent
        self._reads = reads
        program = Program(self._text, self._options, pattern)
        self._programs: Dict[str, Program] = {"search": program}
        self.groups = program.groups - 1
        self._names = tuple(program.names() if names is None else names)
        self._numbers, self.groupindex = numbered(self._names)
        self._cache: Dict[str, Any] = {}

    def _program(self, way: str) -> Program:
        """The program for a way to search: `search`, `full`, or `advance` for matches that are not empty."""
        if way not in self._programs:
            text, options = self._whole() if way == "full" else (self._text, self._options.with_(not_empty=True))
            self._programs[way] = Program(text, options, self.pattern)
        return self._programs[way]

    def _searched(self) -> "Pattern":
        """What is searched for in texts with lone surrogates."""
        if "twin" not in self._cache:
            twin = self._twin()
            # None stands for itself, so that there is no ring
            self._cache["twin"] = None if twin is self else twin
        return self._cache["twin"] or self

    @property
    def _idle(self) -> int:
        """How many handles no search uses."""
        return len(self._programs["search"]._idle)

    # ---- One match

    def search(self, string: AnyString, pos: int = 0, endpos: int = sys.maxsize) -> Optional[Match]:
        """The first match that begins at pos or later, or None.

            >>> import fancy
            >>> fancy.compile("[a-z]+").search("7 apples", 3).span()
            (3, 8)
        """
        return _Range(self, string, pos, endpos).find("search", is_anchored=False)

    def match(self, string: AnyString, pos: int = 0, endpos: int = sys.maxsize) -> Optional[Match]:
        """The match that begins at pos, or None."""
        return _Range(self, string, pos, endpos).find("search", is_anchored=True)

    def fullmatch(self, string: AnyString, pos: int = 0, endpos: int = sys.maxsize) -> Optional[Match]:
        """The match that begins at pos and ends at endpos, or None.

        Raises `error` if the pattern calls itself as a whole, as by `\\g<0>`, and has a lazy loop.
        """
        part = _Range(self, string, pos, endpos)
        match = part.find("full", is_anchored=True)
        return match if match and match.end() == part.endpos else None

    # ---- All matches

    def finditer(self, string: AnyString, pos: int = 0, endpos: int = sys.maxsize) -> Iterator[Match]:
        """An iterator over the matches, from left to right. Matches do not overlap, and an empty match directly after another
        match is left out.

            >>> import fancy
            >>> [match.span() for match in fancy.compile("[0-9]+").finditer("1, 20 and 3")]
            [(0, 1), (3, 5), (10, 11)]
        """
        return _Range(self, string, pos, endpos).matches()

    def findall(self, string: AnyString, pos: int = 0, endpos: int = sys.maxsize) -> List[Any]:
        """The texts of all matches. If the pattern has one group, they are the texts of that group; if it has more, tuples of
        the texts of the groups, with "" for a group that is not set."""
        matches = self.finditer(string, pos, endpos)
        if self.groups == 0:
            return [match[0] for match in matches]
        empty: AnyString = "" if self._reads == STR else b""
        if self.groups == 1:
            return [match._text_of(1, empty) for match in matches]
        return [match.groups(empty) for match in matches]

    def split(self, string: AnyString, maxsplit: int = 0) -> List[Optional[AnyString]]:
        """The pieces of the string between the matches, and between two of them the groups of the match. At most maxsplit
        matches split the string, and all do if it is 0.

            >>> import fancy
            >>> fancy.compile(r",\\s*").split("one, two,three")
            ['one', 'two', 'three']
        """
        pieces: List[Any] = []
        part, end = _Range(self, string), 0
        string = part.text.source
        for match in part.matches(whole_number(maxsplit)):
            pieces.append(string[end : match.start()])
            pieces.extend(match.groups())
            end = match.end()
        pieces.append(string[end:])
        return pieces

    def sub(self, repl: Replacement, string: AnyString, count: int = 0) -> AnyString:
        """The string with its matches replaced: the first `count` of them, or all if count is 0.

        repl is a template, in which `\\1`, `\\g<1>` and `\\g<name>` are groups, or a function that returns the new text of a
        match. If the function returns None, the match is removed. Raises `error` if the template cannot be read.

            >>> import fancy
            >>> fancy.compile(r"(\\w+) (\\w+)").sub(r"\\2 \\1", "hello world")
            'world hello'
        """
        return self.subn(repl, string, count)[0]

    def subn(self, repl: Replacement, string: AnyString, count: int = 0) -> Tuple[AnyString, int]:
        """What `sub` returns, and how many matches were replaced."""
        template = None if callable(repl) else self._template(repl)
        expand = template.expand if template else repl
        with_groups = template is None or template.asks_for_groups()
        part, end = _Range(self, string), 0
        pieces: List[Any] = []
        for match in part.matches(whole_number(count), with_groups):
            pieces += part.text.source[end : match.start()], expand(match)
            end = match.end()
        if not pieces:
            return part.text.source, 0
        pieces.append(part.text.source[end:])
        # what a function writes may be None, which is nothing
        return part.text.source[:0].join([it for it in pieces if it is not None]), len(pieces) // 2


    _kind = Match


class ReMatch(Match):
    __doc__ = MatchRest.__doc__
    __module__ = "fancy.re"
    __qualname__ = "Match"
    __slots__ = ()


class RePattern(Pattern):
    __doc__ = PatternRest.__doc__
    __module__ = "fancy.re"
    __qualname__ = "Pattern"
    __slots__ = ()
    _kind = ReMatch


class _Range:
    """A pattern and a part of a string, from pos to endpos, in which it is searched for."""

    def __init__(self, pattern: Pattern, string: AnyString, pos: int = 0, endpos: int = sys.maxsize) -> None:
        self.pattern = pattern
        self.string = string
        self.text = text_of(string, pattern._reads)
        # keeps who has a buffer from changing its size
        self.view = None if isinstance(string, (str, bytes)) else memoryview(string)
        self.searched = pattern._searched() if self.text.is_mapped else pattern
        self.pos, self.endpos = self.text.clipped(pos), self.text.clipped(endpos)
        self.end = self.text.byte_of(self.endpos)

    def find(self, way: str, is_anchored: bool) -> Optional[Match]:
        if self.pos > self.endpos:
            return None
        program = self.searched._program(way)
        spans = program.find(self.text.utf8, self.end, self.text.byte_of(self.pos), is_anchored)
        return self.match_of(spans) if spans else None

    def match_of(self, spans: List[int]) -> Match:
        return self.pattern._kind(self.pattern, self.string, self.text, self.pos, self.endpos, spans)

    def matches(self, limit: int = 0, with_groups: bool = True) -> Iterator[Match]:
        """Every match of the list, or the first `limit` of them if it is not 0, with the groups of each or with group 0
        alone."""
        if self.pos > self.endpos or limit < 0:
            return iter(())
        limit = limit or sys.maxsize
        if self.pattern._is_adjacent:
            return map(self.match_of, self.adjacent_spans(limit))
        return map(self.match_of, self.spans(limit, with_groups and self.pattern.groups > 0))

    def adjacent_spans(self, limit: int) -> Iterator[List[int]]:
        """As `spans` with groups: after an empty match comes one that begins there and is not empty, or else the first one
        behind."""
        at, was_empty = self.text.byte_of(self.pos), False
        for _ in range(limit):
            found = self.searched._program("advance").find(self.text.utf8, self.end, at, True) if was_empty else None
            if found is None and was_empty:
                if at >= self.end:
                    return
                at = self.text.byte_of(self.text.place_of(at) + 1)
            if found is None:
                found = self.searched._program("search").find(self.text.utf8, self.end, at, False)
            if found is None:
                return
            yield found
            at, was_empty = found[1], found[0] == found[1]

    def spans(self, limit: int, with_groups: bool) -> Iterator[List[int]]:
        """Start and end of each match, or of each group of each match, of at most `limit`. Each call has room for twice as many
        matches as the one before, so there are few calls."""
        program = self.searched._program("search")
        cursor = Cursor(self.text.byte_of(self.pos), 0, False)
        most = max(1, _MOST_ROOM // (2 * program.groups if with_groups else 2))
        room, has_more = 1, True
        while has_more:
            rows, fault, has_more = program.find_all(self.text.utf8, self.end, cursor, min(room, limit), with_groups)
            yield from rows
            if fault is not None:
                raise fault
            limit -= len(rows)
            has_more = has_more and limit > 0
            room = min(2 * room, most)


def compiled(pattern: Any, flags: int) -> Pattern:
    """What `compile` gives without options."""
    from . import compile

    return compile(pattern, flags)


def found(
    rows: Any, count: int, width: int, patterns: Tuple[Pattern, ...], string: AnyString, reads: int, pos: int, endpos: int, kind: Any
) -> Iterator[Any]:
    """The matches of the rows of a scanner: each with the index of its pattern, and that of the first one that stopped."""
    text = text_of(string, reads)
    for start in range(0, width * count, width):
        index, stopped = rows[start], rows[start + 1]
        pattern = patterns[index]
        spans = rows[start + ROW_SPANS : start + ROW_SPANS + 2 * (pattern.groups + 1)]
        match = pattern._kind(pattern, string, text, pos, endpos, spans)
        yield kind(index, match, None if stopped == UNSET else stopped)


def add_to_re(of_patterns: type, of_matches: type) -> None:
    """What the objects of the module `re` have beside."""
    add(RePattern, of_patterns)
    add(ReMatch, of_matches)


forget, re_pattern = forget_texts, RePattern
