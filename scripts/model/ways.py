"""The ways of trees, listed one by one as docs/MEANING.md says, and what a search finds by them.

It shares nothing with the engine and its definitions, and knows no fast path: it lists all ways, so it is for short texts.
Places are characters here; answers are in bytes.
"""
import re
from collections import namedtuple

from model.analysis import Rounds, size_of
from model.trees import UNSET

MOST_CALLS = 19
# how many nodes are gone through for one answer
MOST_NODES = 300_000
# what a class of the crate `regex` means otherwise than one of Python's `re`
OTHER_CLASS = re.compile(r"\\p|\[:|&&|--|~~|\[.*\[|\\b")
# Where a way stands, the span of each group, where the match is said to begin, and the calls that are open.
State = namedtuple("State", "at spans keep calls")


def is_word(character):
    return bool(re.match(r"\w", character))


def folded(character):
    """The character by simple case folding: what folds to several stays as it is."""
    whole = character.casefold()
    return whole if len(whole) == 1 else character.lower()


def same_folded(a, b):
    return folded(a) == folded(b)


def numbered(tree, first):
    """Numbers the groups in the order in which they open, and notes which assertions are in a look-around."""
    groups = {0: tree}
    count = first

    def number(node, inside):
        nonlocal count
        if node.kind == "grp":
            node.start_group = count
            groups[count] = node
            count += 1
        node.look = inside
        for child in node.children:
            number(child, "look" if node.kind == "look" else inside)

    number(tree, "")
    return groups, count


class Unknown(Exception):
    """A row of which this model says nothing: a class that Python's `re` reads otherwise, or too many ways."""


class Meaning:
    """The ways of a tree in a text. `begun` is where the search began, for `cont`; None if no match ended there."""

    def __init__(self, tree, text, first_group=1, begun=0):
        self.text, self.begun = text, begun
        self.groups, self.count = numbered(tree, first_group)
        self.tree, self.first_group = tree, first_group
        self.left = MOST_NODES

    def ways(self, node, state):
        self.left -= 1
        if self.left == 0:
            raise Unknown("too many ways")
        return getattr(self, "of_" + node.kind)(node, state)

    def first_way(self, node, state):
        return next(iter(self.ways(node, state)), None)

    # ---- one character

    def character(self, state, takes):
        if state.at < len(self.text) and takes(self.text[state.at]):
            yield state._replace(at=state.at + 1)

    def of_literal(self, node, state):
        return self.character(state, lambda c: same_folded(c, node.text) if node.folded else c == node.text)

    def of_any(self, node, state):
        left_out = {"Any": "", "AnyNoNL": "\n", "AnyNoCRLF": "\r\n"}[node.text]
        return self.character(state, lambda c: c not in left_out)

    def of_set(self, node, state):
        try:
            pattern = re.compile(rf"(?:{node.text})\Z", re.I if node.folded else 0)
        except re.error:
            raise Unknown(node.text) from None
        if OTHER_CLASS.search(node.text):
            raise Unknown(node.text)
        return self.character(state, lambda c: bool(pattern.match(c)))

    def of_newline(self, _node, state):
        if self.text.startswith("\r\n", state.at):
            yield state._replace(at=state.at + 2)
            return
        yield from self.character(state, lambda c: c in "\n\v\f\r\x85\u2028\u2029")

    def of_bytes(self, node, state):
        if self.text.startswith(node.text, state.at):
            yield state._replace(at=state.at + len(node.text))

    # ---- tests

    def of_empty(self, _node, state):
        yield state

    of_define = of_empty

    def of_verb(self, _node, _state):
        yield from ()

    def of_keep(self, _node, state):
        yield state._replace(keep=state.at)

    def of_cont(self, _node, state):
        if state.at == self.begun:
            yield state

    def of_has(self, node, state):
        if state.spans[node.number] is not None:
            yield state

    def of_assertion(self, node, state):
        if self.holds(node, state.at):
            yield state

    def begins_line(self, at, crlf):
        before = self.text[at - 1 : at]
        is_inside = crlf and before == "\r" and self.text[at : at + 1] == "\n"
        return at == 0 or before == "\n" or (crlf and before == "\r" and not is_inside)

    def ends_line(self, at, crlf):
        after = self.text[at : at + 1]
        is_inside = crlf and after == "\n" and self.text[at - 1 : at] == "\r" and at > 0
        return at == len(self.text) or (after == "\n" and not is_inside) or (crlf and after == "\r")

    def holds(self, node, at):
        before = at > 0 and is_word(self.text[at - 1])
        after = at < len(self.text) and is_word(self.text[at])
        left = set(self.text[at:])
        return {
            "StartText": at == 0,
            "EndText": at == len(self.text),
            "EndTextIgnoreTrailingNewlines": left <= ({"\n", "\r"} if node.crlf else {"\n"}),
            "StartLine": self.begins_line(at, node.crlf),
            "StartLineOniguruma": self.begins_line(at, node.crlf)
            and (bool(node.look) or at < len(self.text) or not self.text),
            "EndLine": self.ends_line(at, node.crlf),
            "LeftWordBoundary": not before and after,
            "RightWordBoundary": before and not after,
            "LeftWordHalfBoundary": not before,
            "RightWordHalfBoundary": not after,
            "WordBoundary": before != after,
            "NotWordBoundary": before == after,
        }[node.text]

    # ---- several nodes

    def in_order(self, nodes, state):
        if not nodes:
            yield state
            return
        for way in self.ways(nodes[0], state):
            yield from self.in_order(nodes[1:], way)

    def of_cat(self, node, state):
        return self.in_order(node.children, state)

    def of_alt(self, node, state):
        for branch in node.children:
            yield from self.ways(branch, state)

    def of_grp(self, node, state):
        for way in self.ways(node.children[0], state):
            spans = list(way.spans)
            spans[node.start_group] = (state.at, way.at)
            yield way._replace(spans=tuple(spans))

    def of_rep(self, node, state, made=0):
        if made < node.lo:
            for way in self.ways(node.children[0], state):
                yield from self.of_rep(node, way, made + 1)
            return
        if made == node.hi:
            yield state
            return
        if node.lazy:
            yield state
        for way in self.ways(node.children[0], state):
            if node.hi == UNSET and way.at == state.at:
                yield way
            else:
                # without a bound the count says nothing more
                yield from self.of_rep(node, way, made if node.hi == UNSET else made + 1)
        if not node.lazy:
            yield state

    def of_atom(self, node, state):
        way = self.first_way(node.children[0], state)
        if way is not None:
            yield way

    def of_if(self, node, state):
        condition, yes, no = node.children
        way = self.first_way(condition, state)
        return self.ways(no, state) if way is None else self.ways(yes, way)

    # ---- around

    def behind(self, node, state):
        """The ways of a body that end here, branch by branch, from the nearest place back."""
        for branch in node.children if node.kind == "alt" else [node]:
            for at in range(state.at, -1, -1):
                for way in self.ways(branch, state._replace(at=at)):
                    if way.at == state.at:
                        yield way

    def of_look(self, node, state):
        body = node.children[0]
        found = self.ways(body, state) if node.ahead else self.behind(body, state)
        if node.negative:
            if next(iter(found), None) is None:
                yield state
            return
        for way in found:
            yield way._replace(at=state.at)

    def of_absent(self, node, state):
        last = state.at
        while last < len(self.text) and self.first_way(node.children[0], state._replace(at=last)) is None:
            last += 1
        for at in range(last, state.at - 1, -1):
            yield state._replace(at=at)

    # ---- groups that are named

    def of_ref(self, node, state):
        span = state.spans[node.number]
        if span is None:
            return
        piece = self.text[slice(*span)]
        found = self.text[state.at : state.at + len(piece)]
        # a folded piece takes as many bytes
        same = len(found) == len(piece) and len(found.encode()) == len(piece.encode())
        if same and (found == piece or (node.folded and all(map(same_folded, found, piece)))):
            yield state._replace(at=state.at + len(piece))

    def of_call(self, node, state):
        if state.calls.count(node.number) == MOST_CALLS:
            return
        for way in self.ways(self.groups[node.number], state._replace(calls=(*state.calls, node.number))):
            yield way._replace(calls=state.calls)

    # ---- searches

    def begin(self, at):
        return State(at, (None,) * max(self.count, 1), at, ())

    def from_start(self, at):
        """All ways of the tree from one start."""
        return self.ways(self.tree, self.begin(at))

    def byte(self, at):
        return len(self.text[:at].encode())

    def numbers(self, way):
        """The numbers of an answer: the match, then each group."""
        pairs = [(min(way.keep, way.at), way.at), *way.spans[self.first_group :]]
        return [None if it is None else (self.byte(it[0]), self.byte(it[1])) for it in pairs]

    def length(self, way):
        start, end = self.numbers(way)[0]
        return end - start

    def admitted(self, start, not_empty):
        """The ways from a start, without the empty ones if the search is for a match that is not empty."""
        return (way for way in self.from_start(start) if not (not_empty and way.at == start))

    def first(self, starts, not_empty=False):
        """The first way at the earliest start that has one."""
        return next((way for start in starts for way in self.admitted(start, not_empty)), None)

    def longest(self, starts, not_empty=False):
        """The longest way at the earliest start that has one, the first among equals."""
        for start in starts:
            found = list(self.admitted(start, not_empty))
            if found:
                # max gives the first of the greatest
                return max(found, key=self.length)
        return None


# ---- how many states a search for a fragment visits


def states(node):
    """The states of a plain search before a node or after an iteration, with the counts of the loops around."""
    inner = sum(states(child) for child in node.children)
    if node.kind != "rep":
        return 1 + inner
    if node.hi != UNSET:
        counts = node.hi + 1
    else:
        # whether an iteration moved is told apart if the body can match the empty string
        counts = 2 * (node.lo + 1) if node.children[0].size[0] == 0 else node.lo + 1
    return 1 + counts * (1 + inner)


def visit_bound(tree, bytes_left):
    """How many states a search for the children of an easy tree visits at most: each once at each place."""
    size_of(tree, Rounds())
    return (1 + sum(states(child) for child in tree.children)) * (bytes_left + 1)
