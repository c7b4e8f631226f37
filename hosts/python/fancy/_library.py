"""The calls of the shared library, by ctypes."""

from __future__ import annotations

import os
from ctypes import CDLL, POINTER, Structure, c_bool, c_char_p, c_size_t, c_uint32, c_uint64, c_void_p
from ctypes import cast, create_string_buffer, sizeof
from pathlib import Path
from threading import Lock
from typing import Any, Callable, Dict, Iterable, List, Mapping, Optional, Tuple

from ._errors import LimitError, error
from ._flags import RegexFlag
from ._texts import whole_number

UNSET = c_size_t(-1).value
VERSION = "0.4.0"
# The library has to be of this minor version: below 1.0.0 a minor version may change calls.
MINOR = VERSION.rpartition(".")[0]
NAMES = (f"libfancy.so.{MINOR}", "libfancy.so")

OK, NO_MATCH, MEMORY = 0, 1, 5
# how many numbers of a row are before the spans of its groups
ROW_SPANS = 3
LIMITS = (7, 8, 9, 41, 42)


class _Program(Structure):
    _fields_ = [("words", c_size_t * 3)]


class _Scanner(Structure):
    _fields_ = [("words", c_size_t * 3)]


_SIZES = ("size", "pos", "max_prog_size", "max_nesting", "max_depth", "backtrack_limit")
_SWITCHES = (
    "compile_anchored",
    "anchored",
    "not_continued",
    "not_empty",
    "end_text",
    "ascii",
    "longest",
    "case_insensitive",
    "multi_line",
    "dot_matches_new_line",
    "ignore_whitespace",
    "crlf",
    "swap_greed",
    "oniguruma",
    "named_groups_only",
    "text_is_utf8",
)


class OptionsStruct(Structure):
    _fields_ = [
        *((name, c_size_t) for name in _SIZES),
        ("step_limit", c_uint64),
        *((name, c_bool) for name in _SWITCHES),
        ("visit_limit", c_uint64),
        ("memory_limit", c_size_t),
        ("analysis_limit", c_size_t),
        ("reserved", c_uint64 * 1),
    ]


class Outcome(Structure):
    _fields_ = [("code", c_uint32), *((name, c_size_t) for name in ("byte", "group", "count", "next"))]


class Cursor(Structure):
    """How far a list of all matches has come."""

    _fields_ = [("pos", c_size_t), ("last", c_size_t), ("has_last", c_bool)]


# ---- The library


def _candidates() -> List[str]:
    """What may be the library, the likeliest first: what FANCY_LIBRARY names, the one of the package, the installed one."""
    given = os.environ.get("FANCY_LIBRARY")
    if given is None:
        own = Path(__file__).with_name("libfancy.so")
        return [str(own)] if own.exists() else list(NAMES)
    return [str(Path(given) / name) for name in NAMES] if os.path.isdir(given) else [given]


def _loaded() -> CDLL:
    faults = []
    for name in _candidates():
        try:
            return CDLL(name)
        except OSError as fault:
            faults.append(str(fault))
    raise ImportError(
        "the library libfancy.so was not found. Install it (`scripts/install library`), or name its file or folder in the"
        " environment variable FANCY_LIBRARY. Tried: " + "; ".join(faults)
    )


_PROGRAM, _OPTIONS, _NUMBERS, _ROOM = POINTER(_Program), POINTER(OptionsStruct), POINTER(c_size_t), (c_void_p, c_size_t)
_SCANNER = POINTER(_Scanner)
_TEXT = (c_char_p, c_size_t)
_CALLS = {
    "fancy_default_options": (OptionsStruct, ()),
    "fancy_version": (c_size_t, _ROOM),
    "fancy_compile_pattern": (Outcome, (*_TEXT, _OPTIONS, _PROGRAM)),
    "fancy_clone": (Outcome, (_PROGRAM, _PROGRAM)),
    "fancy_free": (None, (_PROGRAM,)),
    "fancy_group_count": (c_size_t, (_PROGRAM,)),
    "fancy_group_name": (c_size_t, (_PROGRAM, c_size_t, *_ROOM)),
    "fancy_find": (Outcome, (_PROGRAM, *_TEXT, _OPTIONS, _NUMBERS, c_size_t)),
    "fancy_find_all": (Outcome, (_PROGRAM, *_TEXT, _OPTIONS, POINTER(Cursor), _NUMBERS, c_size_t)),
    "fancy_captures_all": (Outcome, (_PROGRAM, *_TEXT, _OPTIONS, POINTER(Cursor), _NUMBERS, c_size_t)),
    "fancy_scanner_add": (Outcome, (_SCANNER, *_TEXT, _OPTIONS)),
    "fancy_scan": (Outcome, (_SCANNER, *_TEXT, _OPTIONS, _NUMBERS, c_size_t, _NUMBERS, c_size_t)),
    "fancy_scanner_free": (None, (_SCANNER,)),
    "fancy_error_name": (c_size_t, (c_uint32, *_ROOM)),
    "fancy_error_message": (c_size_t, (POINTER(Outcome), *_ROOM)),
    "fancy_explain_pattern": (c_size_t, (*_TEXT, _OPTIONS, *_ROOM)),
}


def _declared(library: CDLL) -> CDLL:
    for name, (result, arguments) in _CALLS.items():
        call = getattr(library, name)
        call.restype, call.argtypes = result, arguments
    return library


def _written(write: Callable[..., int], *arguments: Any) -> str:
    """What a call writes into a room. It returns the length of the whole text."""
    room = create_string_buffer(128)
    length = write(*arguments, room, len(room))
    if length >= len(room):
        room = create_string_buffer(length + 1)
        length = write(*arguments, room, len(room))
    return room.raw[:length].decode()


class _Library:
    """The calls of the library by their names. It is loaded at the first of them, so that the package can be imported, and
    its documents read, without it."""

    def __getattr__(self, name: str) -> Any:
        if name not in _CALLS:
            raise AttributeError(name)
        library = _declared(_loaded())
        defaults, found = library.fancy_default_options(), _written(library.fancy_version)
        if defaults.size != sizeof(OptionsStruct) or found.rpartition(".")[0] != MINOR:
            raise ImportError(f"the library {library._name} is of version {found}, and this package needs {MINOR}")
        vars(self).update({call: getattr(library, call) for call in _CALLS})
        return vars(self)[name]


_library = _Library()


def addresses(names: Iterable[str]) -> List[int]:
    """Where the calls of these names are in memory, for the extension."""
    return [cast(getattr(_library, name), c_void_p).value or 0 for name in names]


def version() -> str:
    """The version of the library, as '0.4.0'."""
    return _written(_library.fancy_version)


# ---- Options


class Options:
    """The options of a pattern: by its flags, and those that were given by name."""

    # by the names of RegexBuilder, the names of the library
    NAMES = {
        "backtrack_limit": "backtrack_limit",
        "step_limit": "step_limit",
        "visit_limit": "visit_limit",
        "memory_limit": "memory_limit",
        "max_prog_size": "max_prog_size",
        "max_nesting": "max_nesting",
        "analysis_limit": "analysis_limit",
        "crlf": "crlf",
        "swap_greed": "swap_greed",
        "oniguruma": "oniguruma",
        "find_not_empty": "not_empty",
        "leftmost_longest": "longest",
        "ignore_numbered_groups_when_named_groups_exist": "named_groups_only",
    }
    FLAGS = {
        RegexFlag.IGNORECASE: "case_insensitive",
        RegexFlag.MULTILINE: "multi_line",
        RegexFlag.DOTALL: "dot_matches_new_line",
        RegexFlag.VERBOSE: "ignore_whitespace",
        RegexFlag.ASCII: "ascii",
    }
    __slots__ = ("given", "is_utf8", "_fields")

    def __init__(self, given: Tuple[Tuple[str, Any], ...], fields: Mapping[str, Any]) -> None:
        self.given = given
        # of a pattern over bytes: they are UTF-8
        self.is_utf8 = bool(dict(given).get("utf8"))
        self._fields = dict(fields)

    @classmethod
    def of(cls, flags: RegexFlag, given: Mapping[str, Any]) -> "Options":
        fields: Dict[str, Any] = {name: True for flag, name in cls.FLAGS.items() if flags & flag}
        for name, value in given.items():
            if name == "utf8":
                continue
            if name not in cls.NAMES:
                raise TypeError(f"there is no option {name!r}; the options are {', '.join(cls.NAMES)}, utf8")
            if isinstance(value, int):
                value = whole_number(value)
                if not 0 <= value <= UNSET:
                    raise ValueError(f"{name} is not from 0 to {UNSET}")
            fields[cls.NAMES[name]] = value
        return cls(tuple(sorted(given.items())), fields)

    def with_(self, **fields: Any) -> "Options":
        return Options(self.given, {**self._fields, **fields})

    def is_verbose(self) -> bool:
        """Whether blanks are left out of a pattern."""
        return bool(self._fields.get("ignore_whitespace"))

    def nesting_deeper(self, levels: int) -> "Options":
        """The same options, which allow this many nodes more in one another."""
        most = self._fields.get("max_nesting", _library.fancy_default_options().max_nesting)
        return self.with_(max_nesting=min(most + levels, UNSET))

    def struct(self) -> OptionsStruct:
        """As the library has them. The texts of all searches come from `str.encode`."""
        options = _library.fancy_default_options()
        options.text_is_utf8 = True
        for name, value in self._fields.items():
            setattr(options, name, value)
        return options

    def __eq__(self, other: object) -> bool:
        return isinstance(other, Options) and (self.is_utf8, self._fields) == (other.is_utf8, other._fields)

    def __hash__(self) -> int:
        return hash(tuple(sorted(self._fields.items())))


# ---- Programs


def fault_of(outcome: Outcome, pattern: Any) -> Optional[Exception]:
    """Why a call has no result. No match is a result."""
    if outcome.code in (OK, NO_MATCH):
        return None
    if outcome.code == MEMORY:
        return MemoryError()
    name = _written(_library.fancy_error_name, outcome.code)
    kind = LimitError if outcome.code in LIMITS else error
    return kind(_written(_library.fancy_error_message, outcome), pattern, None, name)


def refusal(pattern: str, outcome: Outcome, options: OptionsStruct) -> Exception:
    """Why a pattern was not compiled."""
    if outcome.code == MEMORY:
        return MemoryError()
    text = pattern.encode()
    name = _written(_library.fancy_error_name, outcome.code)
    message = _written(_library.fancy_explain_pattern, text, len(text), options) or name
    if outcome.byte == UNSET:
        return error(message, pattern, None, name)
    message = message.replace(f"at byte {outcome.byte}: ", "", 1)
    return error(message, pattern, len(text[: outcome.byte].decode()), name)


class _Handle:
    """A program of the library with what one search at a time writes to; it is freed with the handle."""

    __slots__ = ("program", "options", "spans")

    def __init__(self, options: Options) -> None:
        # first what may fail, so that there is nothing to free then
        self.options = options.struct()
        self.program = _Program()
        self.spans = (c_size_t * 0)()

    def make_room(self) -> None:
        """Room for the groups of what was compiled."""
        self.spans = (c_size_t * (2 * _library.fancy_group_count(self.program)))()

    def __del__(self, library: _Library = _library) -> None:
        if hasattr(self, "program"):
            library.fancy_free(self.program)


class Program:
    """A pattern that was compiled. Threads may search with it at the same time: each takes a handle of its own, and those share
    what was compiled."""

    __slots__ = ("pattern", "groups", "_shown", "_options", "_original", "_copying", "_idle")

    def __init__(self, pattern: str, options: Options, shown: Any) -> None:
        """`shown` is the pattern as errors of searches have it."""
        self.pattern = pattern
        self._shown = shown
        self._options = options
        # nothing is searched with it, so there is always one to copy, by one thread at a time
        self._original = self._compiled()
        self._copying = Lock()
        self.groups = len(self._original.spans) // 2
        self._idle: List[_Handle] = []

    def _compiled(self) -> _Handle:
        """A handle of the pattern."""
        text = self.pattern.encode()
        handle = _Handle(self._options)
        outcome = _library.fancy_compile_pattern(text, len(text), handle.options, handle.program)
        if outcome.code != OK:
            raise refusal(self.pattern, outcome, handle.options)
        handle.make_room()
        return handle

    def _copied(self) -> _Handle:
        """A new handle. Its one error is out of memory."""
        handle = _Handle(self._options)
        with self._copying:
            self._expect_result(_library.fancy_clone(self._original.program, handle.program))
        handle.make_room()
        return handle

    def names(self) -> List[Optional[str]]:
        """The name of each group from 0 on, or None."""
        handle = self._take()
        names = [_written(_library.fancy_group_name, handle.program, group) or None for group in range(self.groups)]
        self._idle.append(handle)
        return names

    # A list's pop and append are each one step, so threads need no lock for them.

    def _take(self) -> _Handle:
        try:
            return self._idle.pop()
        except IndexError:
            pass
        return self._copied()

    def _expect_result(self, outcome: Outcome) -> None:
        """Raises if the call has no result."""
        fault = fault_of(outcome, self._shown)
        if fault is not None:
            raise fault

    def find(self, text: bytes, length: int, pos: int, is_anchored: bool) -> Optional[List[int]]:
        """Start and end of each group of the first match, in bytes; None if there is no match."""
        handle = self._take()
        options, spans = handle.options, handle.spans
        options.pos, options.anchored, options.not_continued = pos, is_anchored, False
        outcome = _library.fancy_find(handle.program, text, length, options, spans, len(spans))
        found = spans[:] if outcome.code == OK else None
        self._idle.append(handle)
        self._expect_result(outcome)
        return found

    def find_all(
        self, text: bytes, length: int, cursor: Cursor, room: int, with_groups: bool
    ) -> Tuple[List[List[int]], Optional[Exception], bool]:
        """Start and end of the next matches, at most `room`, in bytes, or of each of their groups; why there is no more, if
        that is an error; and whether there may be more."""
        handle = self._take()
        call, width = (_library.fancy_captures_all, 2 * self.groups) if with_groups else (_library.fancy_find_all, 2)
        spans = (c_size_t * (width * room))()
        handle.options.anchored = handle.options.not_continued = False
        outcome = call(handle.program, text, length, handle.options, cursor, spans, len(spans))
        self._idle.append(handle)
        rows = [spans[at : at + width] for at in range(0, width * outcome.count, width)]
        return rows, fault_of(outcome, self._shown), outcome.code == OK


# ---- Many patterns


class Patterns:
    """A scanner of the library, freed with this. The caller lets one call at a time use it."""

    __slots__ = ("scanner", "options")

    def __init__(self) -> None:
        self.scanner = _Scanner()
        # of a scan: those of its patterns were given with them
        self.options = Options((), {}).struct()

    def __del__(self, library: _Library = _library) -> None:
        # without patterns it holds nothing
        if any(self.scanner.words):
            library.fancy_scanner_free(self.scanner)

    def add(self, pattern: str, options: Options) -> None:
        """Adds a pattern that was compiled with these options before. The one error is out of memory."""
        text = pattern.encode()
        fault = fault_of(_library.fancy_scanner_add(self.scanner, text, len(text), options.struct()), pattern)
        if fault is not None:
            raise fault

    def scan(self, text: bytes, length: int, pos: int, groups: int, room: int) -> Tuple[Any, int, int, int, Optional[Exception], bool]:
        """The numbers of the rows of the next matches, at most `room`, each with `groups` groups; how many rows there are, and
        where the scan goes on; the pattern that exceeded a limit, if that is why there is no more; why there is no more, if that
        is an error; and whether there may be more."""
        rows = (c_size_t * (row_width(groups) * room))()
        at = c_size_t(pos)
        outcome = _library.fancy_scan(self.scanner, text, length, self.options, at, groups, rows, len(rows))
        return rows, outcome.count, at.value, outcome.group, fault_of(outcome, None), outcome.code == OK


def row_width(groups: int) -> int:
    """How many numbers a row with so many groups has."""
    return ROW_SPANS + 2 * groups
