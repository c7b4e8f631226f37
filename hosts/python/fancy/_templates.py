"""The templates of `sub`, as Python's `re` has them."""

from __future__ import annotations

from typing import Any, List, Mapping, Sequence, Tuple, Union

from ._errors import error

_ESCAPES = {"a": "\a", "b": "\b", "f": "\f", "n": "\n", "r": "\r", "t": "\t", "v": "\v", "\\": "\\"}
_OCTAL = frozenset("01234567")
_DIGITS = frozenset("0123456789")


class Template:
    """A template that was read: its texts, and its groups by number or name, each in a tuple, in order."""

    __slots__ = ("parts",)

    def __init__(self, parts: Sequence[Any]) -> None:
        self.parts = parts

    @classmethod
    def of(cls, text: str, groups: int, numbers: Mapping[str, int]) -> "Template":
        parts: List[Union[str, Tuple[Union[int, str]]]] = []
        _Reader(text, groups, numbers, parts).read()
        return cls(parts)

    @classmethod
    def of_bytes(cls, template: bytes, code: str, groups: int, numbers: Mapping[str, int]) -> "Template":
        """The same of bytes, whose names of groups are of this code."""
        try:
            parts = cls.of(template.decode(code, "surrogateescape"), groups, numbers).parts
        except error as fault:
            raise error(fault.msg, template, fault.pos) from None
        return cls([part.encode(code, "surrogateescape") if isinstance(part, str) else part for part in parts])

    def asks_for_groups(self) -> bool:
        """Whether it writes what another group than 0 captured."""
        return any(part != (0,) for part in self.parts if isinstance(part, tuple))

    def expand(self, match: Any) -> Any:
        empty: Any = "" if isinstance(match.string, str) else b""
        return empty.join(match[part[0]] or empty if isinstance(part, tuple) else part for part in self.parts)


class _Reader:
    def __init__(self, text: str, groups: int, numbers: Mapping[str, int], parts: list) -> None:
        self.text = text
        self.groups = groups
        self.numbers = numbers
        self.parts = parts
        self.at = 0

    def read(self) -> None:
        while True:
            escape = self.text.find("\\", self.at)
            if escape < 0:
                break
            self.add(self.text[self.at : escape])
            self.at = escape + 1
            self.read_escape(escape)
        self.add(self.text[self.at :])

    def add(self, text: str) -> None:
        if text:
            self.parts.append(text)

    def fail(self, message: str, at: int) -> None:
        raise error(message, self.text, at)

    def digits(self, allowed: frozenset, most: int) -> str:
        """The next characters that are allowed, at most `most`."""
        end = self.at
        while end < min(self.at + most, len(self.text)) and self.text[end] in allowed:
            end += 1
        return self.text[self.at : end]

    def read_escape(self, escape: int) -> None:
        if self.at == len(self.text):
            self.fail("bad escape (end of pattern)", escape)
        letter = self.text[self.at]
        if letter == "g":
            self.at += 1
            self.read_reference()
        elif letter == "0":
            code = self.digits(_OCTAL, 3)
            self.at += len(code)
            self.add(chr(int(code, 8)))
        elif letter in _DIGITS:
            self.read_number(escape)
        elif letter in _ESCAPES:
            self.at += 1
            self.add(_ESCAPES[letter])
        elif letter.isascii() and letter.isalpha():
            self.fail(f"bad escape \\{letter}", escape)
        else:
            self.at += 1
            self.add("\\" + letter)

    def read_number(self, escape: int) -> None:
        """A group of one or two digits, or a character of three octal ones."""
        code = self.digits(_OCTAL, 3)
        if len(code) == 3:
            if int(code, 8) > 0o377:
                self.fail(f"octal escape value \\{code} outside of range 0-0o377", escape)
            self.at += 3
            self.add(chr(int(code, 8)))
            return
        number = self.digits(_DIGITS, 2)
        self.add_group(int(number), self.at)
        self.at += len(number)

    def read_reference(self) -> None:
        if self.text[self.at : self.at + 1] != "<":
            self.fail("missing <", self.at)
        start = self.at + 1
        end = self.text.find(">", start)
        if end == start or start == len(self.text):
            self.fail("missing group name", start)
        if end < 0:
            self.fail("missing >, unterminated name", start)
        name = self.text[start:end]
        if name.isascii() and name.isdigit():
            self.add_group(int(name), start)
        elif not name.isidentifier():
            self.fail(f"bad character in group name {name!r}", start)
        elif name not in self.numbers:
            raise IndexError(f"unknown group name {name!r}")
        else:
            self.parts.append((name,))
        self.at = end + 1

    def add_group(self, number: int, at: int) -> None:
        if number > self.groups:
            self.fail(f"invalid group reference {number}", at)
        self.parts.append((number,))
