"""Why there is no result."""

from __future__ import annotations

from typing import Optional, Union


class error(Exception):
    """A pattern that cannot be read or is refused, a template that cannot be read, or a search that exceeds a limit.

    msg      what is wrong
    pattern  the pattern or the template
    pos      the character where it is wrong, from 0; None if there is no one place
    lineno, colno  its line and column, from 1; None as pos
    name     the name of the error in the engine, as 'InvalidEscape'; None for a template
    """

    __module__ = "fancy"

    def __init__(
        self, msg: str, pattern: Union[str, bytes, None] = None, pos: Optional[int] = None, name: Optional[str] = None
    ) -> None:
        self.msg = msg
        self.pattern = pattern
        self.pos = pos
        self.name = name
        self.lineno: Optional[int] = None
        self.colno: Optional[int] = None
        text = msg
        if pattern is not None and pos is not None:
            newline = "\n" if isinstance(pattern, str) else b"\n"
            self.lineno = pattern.count(newline, 0, pos) + 1  # type: ignore[arg-type]
            self.colno = pos - pattern.rfind(newline, 0, pos)  # type: ignore[arg-type]
            text = f"{msg} at position {pos}"
            if newline in pattern:  # type: ignore[operator]
                text += f" (line {self.lineno}, column {self.colno})"
        super().__init__(text)

    def over(self, pattern: bytes, code: str) -> "error":
        """The same error, of the bytes of which this has the text, or had it before it was rewritten."""
        is_text = isinstance(self.pattern, str) and self.pos is not None and self.pattern == pattern.decode(code)
        pos = len(self.pattern[: self.pos].encode(code)) if is_text else None  # type: ignore[index, union-attr]
        return type(self)(self.msg, pattern, pos, self.name)

    def __reduce__(self):
        return type(self), (self.msg, self.pattern, self.pos, self.name)


class LimitError(error):
    """A search that exceeds a limit: of backtracks, of steps, of the branches that are held, of visits, or of memory. Its
    name says which, such as 'VisitLimitExceeded'."""

    __module__ = "fancy"
