"""What patterns and matches have in Python, over ctypes and over the extension alike: all that is rare."""

from __future__ import annotations

from types import MappingProxyType
from typing import Any, Callable, Dict, Iterable, Mapping, Optional, Tuple, Union

from ._errors import error
from ._flags import RegexFlag
from ._library import Options
from ._readings import Reading
from ._templates import Template
from ._texts import LATIN1, STR, UTF8, mapped, plain, plain_bytes

Group = Union[int, str]
# a text or bytes, as the pattern is
AnyString = Union[str, bytes]
Replacement = Union[AnyString, Callable[[Any], Optional[AnyString]]]
CODES = {LATIN1: "latin-1", UTF8: "utf-8"}


def numbered(names: Iterable[Optional[str]]) -> Tuple[Dict[str, Tuple[int, ...]], Mapping[str, int]]:
    """Of the names of the groups from 0 on, the groups of each name, in the order in which they open, and the first of each."""
    numbers: Dict[str, Tuple[int, ...]] = {}
    for group, name in enumerate(names):
        if name is not None:
            numbers[name] = (*numbers.get(name, ()), group)
    return numbers, MappingProxyType({name: of[0] for name, of in numbers.items()})


def add(kind: Any, rest: type) -> None:
    """Adds the members of a class to another."""
    for name, member in vars(rest).items():
        if name not in ("__module__", "__slots__", "__dict__", "__weakref__") and (member is not None or name != "__doc__"):
            setattr(kind, name, member)


class MatchRest:
    """A match, with its groups. Positions are in characters of the string, from 0, or in bytes.

    re           the pattern
    string       the string
    pos, endpos  the range that was searched
    regs         start and end of each group from 0 on; (-1, -1) if a group is not set

    A group is named by its number or its name. IndexError says that there is no such group. Of several groups with one name,
    the first that is set is meant.
    """

    __slots__ = ()

    def expand(self, template: AnyString) -> AnyString:
        """The template with each reference to a group (`\\1`, `\\g<name>`) replaced by what the group captured.

        Raises `error` if the template cannot be read.
        """
        return self.re._template(template).expand(self)

    def __copy__(self) -> "MatchRest":
        return self

    def __deepcopy__(self, memo: Any) -> "MatchRest":
        return self

    def __repr__(self) -> str:
        return f"<fancy.Match object; span={self.regs[0]}, match={self[0]!r}>"

    def __class_getitem__(cls, kind: Any) -> Any:
        return cls


class PatternRest:
    """A compiled pattern; `compile` makes it. Several threads may search with one at the same time.

    pattern     the pattern, as a string or as bytes
    flags       the flags
    groups      how many groups it has, without group 0
    groupindex  the number of the first group with each name

    A string is searched by a pattern that is a string, and bytes, or what has a buffer of them, by one of bytes. Each search
    takes `pos` and `endpos`, in characters or bytes. The text before pos is there for look-behind, `\\b` and `^`; what
    follows endpos is not. A search that exceeds a limit raises `LimitError`, and out of memory is `MemoryError`.
    """

    __slots__ = ()

    # ---- What is made when it is first needed; `_cache` keeps it

    def _whole(self) -> Tuple[str, Options]:
        """The pattern whose matches end where the text does, with its options."""
        if self._reading().calls_whole:
            # what is called has to be the pattern as it is: its longest match ends where the text does, if one does
            return self._text, self._options.with_(longest=True)
        # no parenthesis more, since a pattern may nest as deep as is allowed; the tree is one level deeper
        return self._reading().with_each_branch("\\z"), self._options.nesting_deeper(1)

    def _templates(self) -> Dict[Any, Template]:
        """The last templates, with room for one more."""
        templates: Dict[Any, Template] = self._cache.setdefault("templates", {})
        if len(templates) >= 64:
            templates.clear()
        return templates

    def _template(self, text: Any) -> Template:
        templates, text = self._templates(), template_text(text, self._reads)
        if text not in templates and self._reads == STR:
            templates[text] = Template.of(text, self.groups, self.groupindex)
        elif text not in templates:
            templates[text] = Template.of_bytes(text, CODES[self._reads], self.groups, self.groupindex)
        return templates[text]

    def _twin(self) -> "PatternRest":
        """What is searched for in texts with lone surrogates, which are others then."""
        return self

    def _reading(self) -> Reading:
        read = self._cache.get("reading")
        if read is None:
            read = self._cache["reading"] = Reading(self._text, self._options.is_verbose())
        return read

    # ---- As a value

    def _key(self) -> Tuple[Any, ...]:
        return self._reads, self.pattern, self.flags, self._options

    def __eq__(self, other: object) -> bool:
        return self._key() == other._key() if type(other) is type(self) else NotImplemented

    def __hash__(self) -> int:
        return hash(self._key())

    def __repr__(self) -> str:
        flags = self.flags & ~RegexFlag.UNICODE
        return f"fancy.compile({self.pattern!r}{f', {flags!r}' if flags else ''})"

    def __copy__(self) -> "PatternRest":
        return self

    def __deepcopy__(self, memo: Any) -> "PatternRest":
        return self

    def __reduce__(self) -> Tuple[Any, ...]:
        return made, (self.pattern, int(self.flags), dict(self._options.given))

    def __class_getitem__(cls, kind: Any) -> Any:
        return cls


def template_text(text: Any, reads: int) -> Any:
    """What a caller gave as a template, as a plain string or as bytes."""
    if reads == STR and isinstance(text, str):
        return plain(text)
    if reads == STR or isinstance(text, str):
        raise TypeError(f"a replacement is {'a string' if reads == STR else 'bytes'} or a function, not {type(text).__name__!r}")
    try:
        return plain_bytes(text)
    except TypeError:
        raise TypeError(f"a replacement is bytes or a function, not {type(text).__name__!r}") from None


def made(pattern: Any, flags: int, given: Mapping[str, Any]) -> Any:
    """A plain string or bytes, compiled."""
    options = Options.of(RegexFlag(flags), given)
    if isinstance(pattern, str):
        if options.is_utf8:
            raise ValueError("utf8 is an option of patterns over bytes")
        return _made(pattern, flags, options, mapped(pattern), STR)
    reads = UTF8 if options.is_utf8 else LATIN1
    text = pattern.decode(CODES[reads])
    try:
        return _over_ascii(pattern, flags, options, text, reads) if reads == LATIN1 else _made(pattern, flags, options, text, reads)
    except error as fault:
        raise fault.over(pattern, CODES[reads]) from None


def _made(pattern: Any, flags: int, options: Options, text: str, reads: int) -> Any:
    from ._objects import Pattern

    try:
        return Pattern(pattern, RegexFlag(flags), options, None if text is pattern else text, None, False, reads)
    except error as fault:
        # under A the engine has no class that matches beyond ASCII
        if not flags & RegexFlag.ASCII or fault.name != "InnerError":
            raise
        return _over_ascii(pattern, flags, options, text, reads)


def _over_ascii(pattern: Any, flags: int, options: Options, text: str, reads: int) -> Any:
    """A pattern that is written so that only ASCII letters are letters."""
    from ._objects import Pattern

    options = options.with_(ascii=False)
    written = Reading(text, options.is_verbose()).over_ascii(bool(flags & RegexFlag.IGNORECASE))
    try:
        return Pattern(pattern, RegexFlag(flags), options, written, None, False, reads)
    except error as fault:
        refused = fault
    # why it is refused as it was given
    try:
        Pattern(text, RegexFlag.NOFLAG, options)
    except error as fault:
        raise fault from None
    raise refused
