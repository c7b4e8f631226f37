"""What the text of a pattern says beside what its program does: its branches, its loops, the order in which its groups
close, calls of the whole, and its classes."""

from __future__ import annotations

import re
from typing import Iterator, List, NamedTuple, Optional, Tuple

_COUNTS = re.compile(r"\{([0-9]*)(,?)([0-9]*)\}")
_CALL = re.compile(r"g[<'][+-]?0+[>']")
_WHOLE = re.compile(r"\(\?[+-]?0+\)")
_NUMBER = re.compile(r"\\(?:x[0-9A-Fa-f]{2}|u[0-9A-Fa-f]{4}|[xu]\{[0-9A-Fa-f]+\})")
_HAS_FOLDING = re.compile(r"\(\?[a-zA-Z]*i")
# what an escape is where only ASCII letters are letters
_ASCII = {"d": "0-9", "w": "0-9A-Za-z_", "s": r"\x09-\x0D\x20"}
_BEYOND = r"(?-i:[\x{80}-\x{10FFFF}])"
_BOUNDARY = "(?:(?<=[0-9A-Za-z_])(?![0-9A-Za-z_])|(?<![0-9A-Za-z_])(?=[0-9A-Za-z_]))"


def _is_beyond(text: str, at: int) -> bool:
    """Whether the number of a character beyond ASCII is here."""
    number = _NUMBER.match(text, at)
    return number is not None and int(number[0].strip("\\xu{}"), 16) > 127


class _Open(NamedTuple):
    """A parenthesis that is open: its group, 0 if it captures nothing, whether blanks are left out after it, and how many
    parentheses closed before it opened."""

    group: int
    is_verbose: bool
    closed: int


class Closing(NamedTuple):
    """When a parenthesis closes: how many closed before it, before it opened, and before the outermost loop closes in which it
    is; its own where it is in none."""

    loop: int
    opened: int
    closed: int

    def encloses(self, other: "Closing") -> bool:
        return self.opened <= other.closed <= self.closed


class Reading:
    """A pattern that was compiled, read as far as its parentheses go.

    calls_whole  whether it calls itself as a whole, as by `\\g<0>` and `(?0)`
    """

    def __init__(self, pattern: str, is_verbose: bool) -> None:
        self.calls_whole = False
        self._pattern = pattern
        self._at = 0
        self._is_verbose = is_verbose
        self._open: List[_Open] = []
        self._opened = 0
        # of each parenthesis that closed: its group, how many closed before it opened, and whether it is repeated
        self._closed: List[Tuple[int, int, bool]] = []
        # where a branch of the whole ends before another
        self._bars: List[int] = []
        # where a comment begins that goes on to the end
        self._comment: Optional[int] = None
        # where an escape begins, and whether it is in a class
        self._escapes: List[Tuple[int, bool]] = []
        # where a character beyond ASCII is, outside of classes, and where a class begins and ends
        self._beyond: List[int] = []
        self._classes: List[Tuple[int, int]] = []
        self._read()

    # ---- What it says

    def with_each_branch(self, text: str) -> str:
        """The pattern with a text at the end of each branch of the whole."""
        starts = [0, *self._bars]
        ends = [*self._bars, len(self._pattern)]
        line_end = "" if self._comment is None else "\n"
        return text.join(self._pattern[start:end] for start, end in zip(starts, ends)) + line_end + text

    def over_ascii(self, folds: bool) -> str:
        """The pattern in which only ASCII letters are letters, and other letters are not folded outside of references."""
        edits = [*self._ascii_escapes()]
        if folds or _HAS_FOLDING.search(self._pattern):
            beyond = [at for at, is_inner in self._escapes if _is_beyond(self._pattern, at) and not is_inner]
            edits += [(at, at + 1, f"(?-i:{self._pattern[at]})") for at in self._beyond]
            edits += [(at, at + len(text), f"(?-i:{text})") for at in beyond for text in _NUMBER.findall(self._pattern[at:])[:1]]
            for start, end in self._classes:
                inner = self._edited(start, end, edits)
                if any(letter > "\x7f" for letter in inner) or any(_is_beyond(inner, at) for at in range(len(inner))):
                    edits = [it for it in edits if not start <= it[0] < end]
                    edits.append((start, end, f"(?:(?!{_BEYOND}){inner}|(?={_BEYOND})(?-i:{inner}))"))
        return self._edited(0, len(self._pattern), edits)

    def _ascii_escapes(self) -> Iterator[Tuple[int, int, str]]:
        """Where an escape of a class or a boundary is, with what it is among ASCII letters."""
        for at, is_inner in self._escapes:
            letter = self._pattern[at + 1 : at + 2]
            if letter.lower() in _ASCII:
                yield at, at + 2, f"[{'^' if letter.isupper() else ''}{_ASCII[letter.lower()]}]"
            elif letter in ("b", "B") and not is_inner and self._pattern[at + 2 : at + 3] != "{":
                yield at, at + 2, _BOUNDARY if letter == "b" else f"(?!{_BOUNDARY})"

    def _edited(self, start: int, end: int, edits: List[Tuple[int, int, str]]) -> str:
        """A part of the pattern with the edits in it."""
        parts = []
        for first, after, text in sorted(it for it in edits if start <= it[0] < end):
            parts += self._pattern[start:first], text
            start = after
        return "".join([*parts, self._pattern[start:end]])

    def closings(self, groups: int) -> List[Closing]:
        """When each group closes, 0 first.

        Where the pattern has other groups than were counted, as an option may leave some out, the groups close in the
        order in which they open.
        """
        order = [Closing(group, group, group) for group in range(groups + 1)]
        if sum(group > 0 for group, _, _ in self._closed) != groups:
            return order
        loops = list(range(len(self._closed)))
        for closed, (_, opened, is_repeated) in enumerate(self._closed):
            if is_repeated:
                # a loop that closes later is around those before it, or beside them
                loops[opened : closed + 1] = [closed] * (closed + 1 - opened)
        for closed, (group, opened, _) in enumerate(self._closed):
            if group:
                order[group] = Closing(loops[closed], opened, closed)
        return order

    # ---- How it is read

    def _begins(self, *texts: str) -> bool:
        return self._pattern.startswith(texts, self._at)

    def _read(self) -> None:
        while self._at < len(self._pattern):
            letter = self._pattern[self._at]
            if letter == "\\":
                self.calls_whole |= _CALL.match(self._pattern, self._at + 1) is not None
                self._escapes.append((self._at, False))
                self._at += 2
            elif letter == "[":
                start = self._at
                self._skip_class()
                self._classes.append((start, self._at))
            elif letter == "#" and self._is_verbose:
                self._skip_line()
            elif letter == "(":
                self._read_open()
            elif letter == ")" and self._open:
                self._read_close()
            else:
                if letter == "|" and not self._open:
                    self._bars.append(self._at)
                if letter > "\x7f":
                    self._beyond.append(self._at)
                self._at += 1

    def _skip_line(self) -> None:
        end = self._pattern.find("\n", self._at)
        if end < 0:
            self._comment = self._at
        self._at = end if end >= 0 else len(self._pattern)

    def _skip_class(self) -> None:
        """Goes past a class, which may have others inside."""
        depth = 0
        while self._at < len(self._pattern):
            letter = self._pattern[self._at]
            self._at += 1
            if letter == "\\":
                self._escapes.append((self._at - 1, True))
                self._at += 1
            elif letter == "[":
                depth += 1
                self._at += self._begins("^")
                # what comes first is itself
                self._at += self._begins("]")
            elif letter == "]":
                depth -= 1
                if depth == 0:
                    return

    def _read_open(self) -> None:
        if self._begins("(?#"):
            self._skip_comment()
            return
        self.calls_whole |= _WHOLE.match(self._pattern, self._at) is not None
        is_group = not self._begins("(?", "(*") or self._begins("(?P<", "(?'")
        is_group |= self._begins("(?<") and not self._begins("(?<=", "(?<!")
        self._opened += is_group
        if self._begins("(?("):
            # the parenthesis of a condition is read by itself
            self._push(0)
            self._at += 2
            if not self._begins("(?"):
                self._push(0)
                self._at += 1
            return
        self._push(self._opened if is_group else 0)
        self._at += 1
        if self._begins("?"):
            self._read_flags()

    def _push(self, group: int) -> None:
        self._open.append(_Open(group, self._is_verbose, len(self._closed)))

    def _read_close(self) -> None:
        closed = self._open.pop()
        self._is_verbose = closed.is_verbose
        self._at += 1
        self._closed.append((closed.group, closed.closed, self._is_repeated()))

    def _is_repeated(self) -> bool:
        """Whether a quantifier for more than one is here."""
        self._skip_blanks()
        if self._begins("*", "+"):
            return True
        counts = _COUNTS.match(self._pattern, self._at)
        if counts is None or not (counts[1] or counts[3]):
            return False
        most = counts[3] if counts[2] else counts[1]
        return most == "" or int(most) > 1

    def _skip_blanks(self) -> None:
        """Goes past what is ignored before a quantifier."""
        while self._begins("(?#") or self._is_verbose and self._begins(" ", "\t", "\n", "\r", "#"):
            if self._begins("(?#"):
                self._skip_comment()
            elif self._begins("#"):
                self._skip_line()
            else:
                self._at += 1

    def _skip_comment(self) -> None:
        while self._at < len(self._pattern):
            letter = self._pattern[self._at]
            self._at += 2 if letter == "\\" else 1
            if letter == ")":
                return

    def _read_flags(self) -> None:
        """Flags, as in `(?x)` and `(?x-i:`: those without a group hold up to the end of the group around."""
        end = self._at + 1
        while end < len(self._pattern) and (self._pattern[end].isalpha() or self._pattern[end] == "-"):
            end += 1
        if end == len(self._pattern) or self._pattern[end] not in ":)" or end == self._at + 1:
            return
        on, _, off = self._pattern[self._at + 1 : end].partition("-")
        self._is_verbose = (self._is_verbose or "x" in on) and "x" not in off
        self._at = end
        if self._pattern[end] == ")":
            self._open.pop()
            self._at += 1
