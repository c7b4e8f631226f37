"""Texts of a caller: what the caller counts, their UTF-8, and where one lies in the other."""

from __future__ import annotations

import codecs
import operator
from bisect import bisect_right
from functools import lru_cache
from threading import local
from typing import Any, List, Optional, Tuple

# How the texts of a pattern are read: a `str`; bytes, each of which is the character with its number; bytes that are UTF-8, but
# for sequences that read as U+FFFD.
STR, LATIN1, UTF8 = range(3)
# One of this many characters has its byte written down.
_STEP = 256
# This many texts of each kind keep their UTF-8 from call to call.
_KEPT = 8
# The characters as which lone surrogates are searched.
MAPPED = 0x10F800
_MAPPING = {0xD800 + number: MAPPED + number for number in range(0x800)}


def plain(string: str) -> str:
    """The characters of a string, as a `str` of which no class of the caller's changes the length or a slice."""
    return string if type(string) is str else str.__str__(string)


def plain_bytes(string: Any) -> bytes:
    """The bytes of an object that has some: `bytes` as they are, and a copy of all else."""
    if isinstance(string, bytes):
        return string if type(string) is bytes else bytes.__getitem__(string, slice(None))
    try:
        view = None if isinstance(string, str) else memoryview(string)
    except TypeError:
        raise TypeError(f"expected string or bytes-like object, got {type(string).__name__!r}") from None
    if view is None:
        raise TypeError("cannot use a bytes pattern on a string object")
    if not view.c_contiguous:
        raise TypeError(f"expected string or bytes-like object, got {type(string).__name__!r}")
    return view.tobytes()


def whole_number(number: Any) -> int:
    """A number of the caller's, as an `int` of which no class of the caller's changes how it compares."""
    return number if type(number) is int else int.__index__(operator.index(number))


def mapped(string: str) -> str:
    """A string without lone surrogates: U+D800 to U+DFFF are written as U+10F800 to U+10FFFF. Raises a UnicodeEncodeError if
    there are such characters beside them."""
    try:
        string.encode()
        return string
    except UnicodeEncodeError:
        if max(string) >= chr(MAPPED):
            raise
        return string.translate(_MAPPING)


class Text:
    """A string with its UTF-8, and the way from bytes to characters and back. Of bytes that are read as characters `source` is
    the bytes, and of a string with lone surrogates it is this string: places and pieces are those of the source.

    It is made in time linear in the string. A position is then found in time logarithmic in it.
    """

    __slots__ = ("source", "is_mapped", "utf8", "_string", "_starts")

    def __init__(self, string: str, source: Any = None) -> None:
        self._string = mapped(string)
        self.is_mapped = self._string is not string
        self.source = string if source is None else source
        self.utf8 = self._string.encode()
        self._starts: Optional[List[int]] = None

    def _is_plain(self) -> bool:
        return len(self.utf8) == len(self._string)

    def _marks(self) -> List[int]:
        """The byte of each 256th character."""
        if self._starts is None:
            starts, byte = [], 0
            for place in range(0, len(self._string) + 1, _STEP):
                starts.append(byte)
                byte += len(self._string[place : place + _STEP].encode())
            self._starts = starts
        return self._starts

    def clipped(self, place: Any) -> int:
        """The position that a caller names, or the nearest that the source has."""
        return max(0, min(whole_number(place), len(self.source)))

    def byte_of(self, place: int) -> int:
        """The byte where the character at a position begins; the length in bytes for the end."""
        if place == 0 or self._is_plain():
            return place
        if place == len(self._string):
            return len(self.utf8)
        mark = place // _STEP
        return self._marks()[mark] + len(self._string[mark * _STEP : place].encode())

    def place_of(self, byte: int) -> int:
        """The position of the character that begins at a byte."""
        if self._is_plain():
            return byte
        starts = self._marks()
        mark = bisect_right(starts, byte) - 1
        return mark * _STEP + len(self.utf8[starts[mark] : byte].decode())


# where the decoder below found sequences that are no UTF-8
_faults = local()


def _replaced(fault: Any) -> Tuple[str, int]:
    _faults.spans.append((fault.start, fault.end))
    return "\ufffd", fault.end


codecs.register_error("fancy.replaced", _replaced)


class NearlyUtf8:
    """Bytes that are searched as UTF-8, with U+FFFD for each sequence that is none. Positions are those of the bytes; one inside
    a character is that of the next one."""

    __slots__ = ("source", "utf8", "_ends")
    is_mapped = False

    def __init__(self, source: bytes) -> None:
        self.source = source
        # where each U+FFFD ends that stands for bytes: in the text, and in the bytes
        self._ends: List[Tuple[int, int]] = [(0, 0)]
        _faults.spans = []
        text = source.decode("utf-8", "fancy.replaced")
        for start, end in _faults.spans:
            in_text, in_source = self._ends[-1]
            self._ends.append((in_text + start - in_source + 3, end))
        self.utf8 = text.encode() if _faults.spans else source

    def clipped(self, place: Any) -> int:
        return max(0, min(whole_number(place), len(self.source)))

    def byte_of(self, place: int) -> int:
        low, high = 0, len(self._ends)
        while high - low > 1:
            middle = (low + high) // 2
            low, high = (middle, high) if self._ends[middle][1] <= place else (low, middle)
        in_text, in_source = self._ends[low]
        byte = min(in_text + place - in_source, len(self.utf8))
        while byte < len(self.utf8) and self.utf8[byte] & 0xC0 == 0x80:
            byte += 1
        return byte

    def place_of(self, byte: int) -> int:
        in_text, in_source = self._ends[bisect_right(self._ends, (byte, len(self.source))) - 1]
        return in_source + byte - in_text


def _latin1(source: bytes) -> Text:
    return Text(source.decode("latin-1"), source)


_READERS = (Text, _latin1, NearlyUtf8)
# Several threads may ask at the same time. What is kept holds its string, so no other string gets its address.
_kept = [lru_cache(maxsize=_KEPT)(reader) for reader in _READERS]


def text_of(string: Any, reads: int = STR) -> Any:
    """The text of a string that is searched: the same one for each of the last strings, and for one that is equal."""
    if reads != STR:
        source = plain_bytes(string)
        return _kept[reads](source) if isinstance(string, bytes) else _READERS[reads](source)
    if isinstance(string, str):
        return _kept[STR](plain(string))
    try:
        memoryview(string)
    except TypeError:
        raise TypeError(f"expected string or bytes-like object, got {type(string).__name__!r}") from None
    raise TypeError("cannot use a string pattern on a bytes-like object")


def piece(string: Any, text: Any, start: int, end: int) -> Any:
    """A part of a string of the caller's that was read so; of a buffer, as it is now."""
    if isinstance(string, (str, bytes)):
        return text.source[start:end]
    return memoryview(string).cast("B")[start:end].tobytes()


def forget_texts() -> None:
    """Lets go of the texts of the last searches."""
    for kept in _kept:
        kept.cache_clear()
