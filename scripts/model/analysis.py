"""What is said of the nodes of a tree: groups, sizes, what is hard, and which refusals hold."""

from dataclasses import dataclass

UNBOUNDED = 2**64 - 1  # as the greatest size: no bound

WORD_ASSERTIONS = {
    "LeftWordBoundary",
    "RightWordBoundary",
    "LeftWordHalfBoundary",
    "RightWordHalfBoundary",
    "WordBoundary",
    "NotWordBoundary",
}
ALWAYS_HARD = {
    "look", "ref", "reflevel", "atom", "keep", "cont", "has", "haslevel", "verb", "if", "call",
    "absent", "absexp", "absstop", "absclear", "newline", "bytes",
}
NOT_YET = "FeatureNotYetSupported"


@dataclass(frozen=True)
class Options:
    """How a tree is analysed and compiled."""

    explicit_group_0: bool = False
    find_not_empty: bool = False
    end_text: bool = False
    anchored: bool = True
    leftmost_longest: bool = False
    reject_at_end: bool = False


def plus(*sizes):
    return min(sum(sizes), UNBOUNDED)


def times(size, count):
    return min(size * count, UNBOUNDED)


def size_of(node, groups):
    """Least, greatest and whether always as many, where the groups have these sizes."""
    sizes = [size_of(child, groups) for child in node.children]
    node.size = own_size(node, sizes, groups)
    if node.kind == "grp":
        groups.found[node.start_group] = node.size
    return node.size


def own_size(node, sizes, groups):
    kind = node.kind
    if kind in ("literal", "any", "set"):
        return (1, 1, True)
    if kind == "newline":
        return (1, 2, False)
    if kind == "bytes":
        return (len(node.text), len(node.text), True)
    if kind == "cat":
        return (plus(*(s[0] for s in sizes)), plus(*(s[1] for s in sizes)), all(s[2] for s in sizes))
    if kind == "alt":
        least = min(s[0] for s in sizes)
        same = all(s[0] == least for s in sizes)
        return (least, max(s[1] for s in sizes), same and all(s[2] for s in sizes))
    if kind == "rep":
        least, most, const = sizes[0]
        unbounded = UNBOUNDED in (most, node.hi)
        return (times(least, node.lo), UNBOUNDED if unbounded else times(most, node.hi), const and node.lo == node.hi)
    if kind in ("grp", "atom"):
        return sizes[0]
    if kind == "if":
        condition, yes, no = sizes
        taken = (plus(condition[0], yes[0]), plus(condition[1], yes[1]))
        const = all(s[2] for s in sizes) and taken[0] == no[0]
        return (min(taken[0], no[0]), max(taken[1], no[1]), const)
    if kind == "absent":
        return (0, UNBOUNDED, False)
    if kind == "absexp":
        return (*sizes[1][:2], False)
    if kind in ("ref", "reflevel", "call"):
        return groups.before.get(node.number if kind == "call" or node.number else None, (0, UNBOUNDED, False))
    return (0, 0, True)


class Rounds:
    """The sizes of groups in the round before, and in this one; a call of 0 means the whole tree."""

    def __init__(self):
        self.before = {}
        self.found = {}


class Analysis:
    def __init__(self, tree, options):
        self.tree = tree
        self.options = options
        self.groups = {}
        self.read = {node.number for node in tree.walk() if node.kind in ("ref", "reflevel", "has", "haslevel")}
        self.first = 0 if options.explicit_group_0 else 1
        self.number(tree, self.first, "")
        self.end = tree.end_group
        self.sizes()
        self.mark(tree)
        self.harden(tree)
        if options.end_text and tree.size[0] == 0:
            tree.hard = True

    def number(self, node, free, look):
        """Numbers the groups as they open, and hands the innermost look-around down."""
        node.start_group, node.look = free, look
        if node.kind == "grp":
            self.groups[free] = node
            free += 1
        if node.kind == "look":
            look = "ahead" if node.ahead else "behind"
        for child in node.children:
            free = self.number(child, free, look)
        node.end_group = free
        return free

    def sizes(self):
        rounds = Rounds()
        for _ in range(len(self.groups) + 1):
            rounds.found = {}
            rounds.found[0] = size_of(self.tree, rounds)
            rounds.before = rounds.found

    def mark(self, node):
        """Marks the nodes with which each match begins."""
        if node.kind == "cont":
            node.at_start = True
        elif node.kind == "grp":
            self.mark(node.children[0])
        elif node.kind == "cat":
            for child in node.children:
                self.mark(child)
                if child.size[1] != 0:
                    break

    def harden(self, node):
        for child in node.children:
            self.harden(child)
        if node.kind == "define":
            node.hard = False
            return
        node.hard = (
            node.kind in ALWAYS_HARD
            or node.kind == "grp" and node.start_group in self.read
            or node.kind in ("cat", "alt", "grp", "rep") and any(child.hard for child in node.children)
            or node.kind == "assertion" and self.is_hard_assertion(node)
            or self.options.leftmost_longest and not node.size[2]
            or self.options.find_not_empty and node.size[0] == 0 and not node.size[2]
        )

    def is_hard_assertion(self, node):
        if node.text == "EndTextIgnoreTrailingNewlines":
            return True
        if node.text in WORD_ASSERTIONS:
            return node.look == "behind"
        if node.text == "StartLineOniguruma":
            return not node.look
        if node.text == "EndText":
            return self.options.end_text or self.options.find_not_empty and not node.look
        return False

    # refusals

    def refusals_of_analysis(self):
        """The refusals of the analysis that hold, each by its name and what it carries."""
        found = set()
        last = self.end - 1 if self.groups else 0
        for node in self.tree.walk():
            if node.kind in ("ref", "reflevel", "has", "haslevel") and not self.first <= node.number <= last:
                found.add(f"InvalidBackref({node.number})")
            if node.kind in ("ref", "reflevel") and node.number == 0:
                found.add("InvalidBackref(0)")
            if node.kind == "reflevel" or node.lazy and self.options.leftmost_longest:
                found.add(NOT_YET)
        if self.has_late_reference(self.tree, [], set()):
            found.add(NOT_YET)
        Calls(self).refuse(found)
        return found

    def has_late_reference(self, node, around, called):
        """A reference to a group inside it, after a call of this group that stands directly in it."""
        if node.kind == "call" and around and around[-1] == node.number:
            called.add(node.number)
        if node.kind == "ref" and node.number in around and node.number in called:
            return True
        inside = around + [node.start_group] if node.kind == "grp" else around
        return any([self.has_late_reference(child, inside, called) for child in node.children])


def characters_before(node):
    """For each child how many characters the node takes at least before it."""
    if node.kind == "cat":
        return [plus(*(earlier.size[0] for earlier in node.children[:at])) for at in range(len(node.children))]
    if node.kind == "if":
        return [0, node.children[0].size[0], 0]
    return [0] * len(node.children)


class Calls:
    """Which group calls which, and at its beginning; what is reached, and what can end."""

    def __init__(self, analysis):
        self.analysis = analysis
        self.links = {0: set()}
        self.first_links = {0: set()}
        self.reached = {0}
        self.has_call = False
        self.visit(analysis.tree, 0, 0, False)
        self.reach()

    def visit(self, node, owner, position, is_never):
        if node.kind == "call":
            self.has_call = True
            if owner != 0 or not is_never:
                self.links.setdefault(owner, set()).add(node.number)
                if position == 0:
                    self.first_links.setdefault(owner, set()).add(node.number)
        if node.kind == "grp":
            if owner == 0 and not is_never:
                self.reached.add(node.start_group)
            self.visit(node.children[0], node.start_group, 0, is_never)
            return
        is_never = is_never or node.kind == "rep" and node.hi == 0
        for child, before in zip(node.children, characters_before(node)):
            self.visit(child, owner, before if node.kind == "define" else plus(position, before), is_never)

    def reach(self):
        todo = list(self.reached)
        while todo:
            for target in self.links.get(todo.pop(), ()):
                if target not in self.reached:
                    self.reached.add(target)
                    todo.append(target)

    def leads_into_cycle(self, group):
        """Whether calls at the beginning lead from the group to one that they lead back to."""
        return any(here in self.ahead_of(here) for here in {group} | self.ahead_of(group))

    def ahead_of(self, group):
        found, todo = set(), [group]
        while todo:
            for target in self.first_links.get(todo.pop(), ()):
                if target not in found:
                    found.add(target)
                    todo.append(target)
        return found

    def can_end(self):
        """Whether the whole tree can end: the least set of parts that can."""
        ending = set()
        while True:
            targets = [(group, node) for group, node in self.analysis.groups.items() if group != 0]
            found = {group for group, node in targets if self.ends(node.children[0], ending)}
            if self.ends(self.analysis.tree, ending):
                found.add(0)
            if found == ending:
                return 0 in ending
            ending = found

    def ends(self, node, ending):
        if node.kind == "call":
            return node.number in ending or node.number != 0 and node.number not in self.analysis.groups
        ends = [self.ends(child, ending) for child in node.children]
        if node.kind == "alt":
            return any(ends)
        if node.kind == "rep":
            return node.lo == 0 or ends[0]
        if node.kind == "if":
            return ends[2] or ends[0] and ends[1]
        return all(ends)

    def refuse(self, found):
        cycles = sorted(group for group in self.reached if self.leads_into_cycle(group))
        if cycles:
            found.add(f'LeftRecursiveSubroutineCall("group {cycles[0]}")')
        if self.has_call and not found and not self.can_end():
            found.add("NeverEndingRecursion")
