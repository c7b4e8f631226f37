"""The flags of a pattern, with the numbers that Python's `re` gives them."""

from enum import IntFlag


class RegexFlag(IntFlag):
    NOFLAG = 0
    IGNORECASE = I = 2
    MULTILINE = M = 8
    DOTALL = S = 16
    UNICODE = U = 32
    VERBOSE = X = 64
    ASCII = A = 256

    def __repr__(self) -> str:
        names = [flag.name for flag in type(self) if flag.value and flag in self]
        return "|".join(f"fancy.{name}" for name in names) or "fancy.NOFLAG"

    __str__ = __repr__
