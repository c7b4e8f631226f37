"""Compiled patterns, and their matches, by the extension: objects of C, to which what is rare is added in Python."""

from __future__ import annotations

from ctypes import addressof
from typing import Any, List, Mapping, Optional, Tuple

from . import _core
from ._core import Match, Pattern, ReMatch, RePattern
from ._flags import RegexFlag
from ._library import Options, Outcome, OptionsStruct, addresses, fault_of, refusal
from ._rest import MatchRest, PatternRest, add, numbered

# The calls of the extension, in its order.
_CALLS = (
    "fancy_compile_pattern", "fancy_clone", "fancy_free", "fancy_group_count", "fancy_group_name", "fancy_find", "fancy_find_all",
    "fancy_captures_all",
)  # fmt: skip

compiled, forget, re_pattern = _core._compiled, _core._forget, _core._re_pattern


def found(rows: Any, *others: Any) -> List[Any]:
    """The matches of the rows of a scanner: each with the index of its pattern, and that of the first one that stopped."""
    return _core._found(addressof(rows), *others)


# ---- What the extension calls, each as core.h says


def _addresses() -> List[int]:
    return addresses(_CALLS)


def _options(flags: int, given: Any) -> Tuple[Options, bytes]:
    options = given if isinstance(given, Options) else Options.of(RegexFlag(flags), given)
    return options, bytes(options.struct())


def _refusal(pattern: str, options: bytes, numbers: Tuple[int, ...]) -> Exception:
    return refusal(pattern, Outcome(*numbers), OptionsStruct.from_buffer_copy(options))


def _fault(pattern: str, unused: None, numbers: Tuple[int, ...]) -> Optional[Exception]:
    return fault_of(Outcome(*numbers), pattern)


def _whole(pattern: Pattern) -> Tuple[str, bytes]:
    text, options = pattern._whole()
    return text, bytes(options.struct())


def _closings(pattern: Pattern) -> List[int]:
    return [number for closing in pattern._reading().closings(pattern.groups) for number in closing]


def _template(pattern: Pattern, text: str) -> Tuple[Any, ...]:
    numbers, _ = numbered(pattern._names)
    return tuple(_part(part, numbers) for part in pattern._template(text).parts)


def _part(part: Any, numbers: Mapping[str, Tuple[int, ...]]) -> Any:
    """A part of a template: a text or bytes, the number of a group, or those of all groups with a name."""
    if not isinstance(part, tuple):
        return part
    return part[0] if isinstance(part[0], int) else numbers[part[0]]


def _twin(pattern: Pattern) -> Pattern:
    return pattern._twin()


def _compile(pattern: Any, flags: int) -> Pattern:
    from . import compile

    return compile(pattern, flags)


_core._help((_addresses, _options, numbered, _refusal, _fault, _whole, _closings, _template, _compile, _twin))


# ---- What is added to its objects


add(Match, MatchRest)
add(Pattern, PatternRest)


def add_to_re(of_patterns: type, of_matches: type) -> None:
    """What the objects of the module `re` have beside: their types cannot be changed, so they call it."""
    _core._serve(type("Rest", (of_patterns, PatternRest), {}), type("Rest", (of_matches, MatchRest), {}))
