"""Random trees, in their notation."""

WORDS = ["a", "b", "c", "ab", "bc", "a.b", "é", "x"]
SETS = ["[ab]", "[^a]", "[b-dé]", "\\w", "\\d"]
EASY_ASSERTIONS = ["start", "end", "bol", "bolcrlf", "eol", "eolcrlf", "wb", "nwb", "wstart", "wend", "whstart", "whend"]
HARD_ASSERTIONS = ["obol", "obolcrlf", "endnl", "endcrlf"]
# refused where they are written out; not under `{0}` and in a definition that is not called
REFUSED = ["(verb commit)", "absclear", '(absstop "a")', '(absexp "ab" (rep 0 1 "a"))', "(haslevel #h 0)"]
BOUNDS = ["0 1", "0 1", "0 *", "0 *", "1 *", "1 *", "2 *", "0 0", "1 1", "2 2", "0 2", "1 3", "2 4"]


class RandomTree:
    """Writes a tree; numbers of groups are put in at its end, when it is known how many there are."""

    def __init__(self, source, first_group):
        self.source = source
        self.opened = 0
        self.first = first_group

    def tree(self, depth, hardness):
        """A tree whose nodes are of a hard kind with this chance."""
        self.hardness = hardness
        text = self.node(depth)
        if "#" in text and self.opened == 0:
            text = f"(cat {text} {self.group(0)})"
        pieces = text.split("#")
        named = [self.number(piece[0]) + piece[1:] for piece in pieces[1:]]
        return pieces[0] + "".join(named)

    def number(self, kind):
        """A group for a call, which may be of the whole tree, for a reference or for a condition."""
        if kind == "c" and self.source.random() < 0.05:
            return "0"
        least = 1 if kind == "r" and self.opened > 1 else self.first
        last = self.first + self.opened - 1
        return str(min(self.source.randint(least, last), self.source.randint(least, last)))

    def node(self, depth):
        if depth == 0:
            return self.leaf()
        if self.source.random() < self.hardness:
            return self.hard_node(depth - 1)
        kinds = [self.leaf, self.sequence, self.choice, self.group, self.loop, self.definition]
        kind = self.source.choices(kinds, [10, 14, 11, 11, 12, 1])[0]
        return kind() if kind == self.leaf else kind(depth - 1)

    def hard_node(self, depth):
        kinds = [
            self.hard_leaf, self.look, self.look_behind, self.around, self.condition, self.absent, self.call,
            self.reference, self.existence,
        ]
        return self.source.choices(kinds, [8, 6, 4, 3, 4, 2, 9, 7, 2])[0](depth)

    def quoted(self):
        mark = "i" if self.source.random() < 0.15 else ""
        return f'{mark}"{self.source.choice(WORDS)}"'

    def leaf(self):
        kind = self.source.random()
        if kind < 0.5:
            return self.quoted()
        if kind < 0.68:
            word = self.source.choice(["set", "set", "iset"])
            return '(%s "%s")' % (word, self.source.choice(SETS).replace("\\", "\\\\"))
        if kind < 0.78:
            return self.source.choice(["dot", "dotcrlf", "any"])
        if kind < 0.84:
            return "empty"
        return self.source.choice(EASY_ASSERTIONS)

    def hard_leaf(self, _depth):
        bytes_ = "(bytes %s)" % " ".join(self.source.choice(["97", "98", "233"]) for _ in range(self.source.randint(0, 2)))
        if self.source.random() < 0.2:
            return self.source.choice(REFUSED)
        return self.source.choice(["keep", "cont", "cont", "nl", "nlascii", "(verb fail)", bytes_, *HARD_ASSERTIONS])

    def several(self, depth, least):
        return " ".join(self.node(depth) for _ in range(self.source.choice([least, 2, 2, 3, 4])))

    def sequence(self, depth):
        return f"(cat {self.several(depth, 0)})".replace(" )", ")")

    def choice(self, depth):
        return f"(alt {self.several(depth, 1)})"

    def group(self, depth):
        self.opened += 1
        return f"(grp {self.node(depth)})"

    def loop(self, depth):
        word = self.source.choice(["rep", "rep", "lazy"])
        return f"({word} {self.source.choice(BOUNDS)} {self.node(depth)})"

    def definition(self, depth):
        return f"(define {self.node(depth)})"

    def look(self, depth):
        return f"({self.source.choice(['ahead', 'nahead'])} {self.node(depth)})"

    def look_behind(self, depth):
        """Its body is mostly one that is allowed there."""
        word = self.source.choice(["behind", "nbehind"])
        kind = self.source.random()
        if kind < 0.25:
            return f"({word} {self.node(depth)})"
        branches = [f"(cat {self.quoted()} {self.node(0)})" for _ in range(self.source.randint(1, 3))]
        return f"({word} (alt {' '.join(branches)}))" if kind < 0.7 else f"({word} {branches[0]})"

    def around(self, depth):
        return f"(atom {self.node(depth)})"

    def condition(self, depth):
        condition = self.existence(depth) if self.source.random() < 0.4 else self.node(depth)
        return f"(if {condition} {self.node(depth)} {self.node(depth)})"

    def absent(self, depth):
        return f"(absent {self.node(depth)})"

    def call(self, _depth):
        return "(call #c)"

    def reference(self, _depth):
        return f"({self.source.choice(['ref', 'ref', 'iref'])} #r)"

    def existence(self, _depth):
        return "(has #h)"
