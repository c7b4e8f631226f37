"""The pattern text of nodes, and the program of a tree as the engine lists it."""

from .analysis import NOT_YET, UNBOUNDED, Analysis

MOST_CALLS = 19
ABSENT = {"absent", "absexp", "absstop", "absclear"}
ESCAPED = set("\\.+*?()[]{}^$#|")
WORD_TEXTS = {
    "StartText": "^",
    "EndText": "$",
    "EndTextIgnoreTrailingNewlines": "\\Z",
    "LeftWordBoundary": "\\b{start}",
    "RightWordBoundary": "\\b{end}",
    "LeftWordHalfBoundary": "\\b{start-half}",
    "RightWordHalfBoundary": "\\b{end-half}",
    "WordBoundary": "\\b",
    "NotWordBoundary": "\\B",
}
ANY_TEXTS = {"Any": "(?s:.)", "AnyNoCRLF": "(?R:.)", "AnyNoNL": "."}


def bracketed(text, is_due):
    return f"(?:{text})" if is_due else text


def folded_text(text, folded):
    return f"(?i:{text})" if folded else text


def bounds_text(node):
    if (node.lo, node.hi) == (0, 1):
        return "?"
    if node.hi == UNBOUNDED and node.lo in (0, 1):
        return "*+"[node.lo]
    if node.lo == node.hi:
        return "{%d}" % node.lo
    return "{%d,%s}" % (node.lo, "" if node.hi == UNBOUNDED else node.hi)


def text_of(node, precedence):
    kind = node.kind
    if kind == "any":
        return ANY_TEXTS[node.text]
    if kind == "literal":
        return folded_text("\\" + node.text if node.text in ESCAPED else node.text, node.folded)
    if kind == "set":
        return folded_text(node.text, node.folded)
    if kind == "assertion":
        if node.text in WORD_TEXTS:
            return WORD_TEXTS[node.text]
        return "(?%sm:%s)" % ("R" if node.crlf else "", "$" if node.text == "EndLine" else "^")
    if kind == "cat":
        return bracketed("".join(text_of(child, 2) for child in node.children), precedence > 1)
    if kind == "alt":
        return bracketed("|".join(text_of(child, 1) for child in node.children), precedence > 0)
    if kind == "grp":
        return f"({text_of(node.children[0], 0)})"
    if kind == "rep":
        text = text_of(node.children[0], 3) + bounds_text(node) + ("?" if node.lazy else "")
        return bracketed(text, precedence > 2)
    return ""


def literals_of(node):
    """The literals that the node is made of, or nothing where it has something else."""
    if node.kind == "literal":
        return [node]
    if node.kind != "cat":
        return None
    found = []
    for child in node.children:
        literals = literals_of(child)
        if literals is None:
            return None
        found += literals
    return found


def delegate(name, nodes):
    start, end = nodes[0].start_group, nodes[-1].end_group
    groups = "no groups" if start == end else f"groups ({start},{end})"
    return f'{name}("{"".join(text_of(node, 1) for node in nodes)}", {groups})'


def batch(nodes):
    """The instructions of neighbouring easy nodes: one at most."""
    if not nodes:
        return []
    literals = [literals_of(node) for node in nodes]
    if all(part is not None for part in literals):
        characters = [literal for part in literals for literal in part]
        if any(literal.folded for literal in characters):
            return ["LitCasei"]
        return [f"Lit({''.join(literal.text for literal in characters)})"]
    if len(nodes) == 1 and nodes[0].kind == "set":
        return [f"CharClass({nodes[0].text})"]
    if len(nodes) == 1 and nodes[0].kind == "any":
        return [nodes[0].text]
    if not any(text_of(node, 1) for node in nodes):
        return []
    return [delegate("Delegate", nodes)]


def assertion_name(node):
    name = node.text
    if name == "StartLineOniguruma" and node.look:
        name = "StartLine"
    if name in ("EndTextIgnoreTrailingNewlines", "StartLine", "StartLineOniguruma", "EndLine"):
        return f"{name} {{ crlf: {str(node.crlf).lower()} }}"
    return name


class Writer:
    """Writes a program; a part that can not be written adds its refusal."""

    def __init__(self, analysis, most=None):
        self.analysis = analysis
        self.refused = set()
        self.most = most
        self.code = []
        self.open_calls = {}
        self.slot = 2 * analysis.end + (1 if analysis.options.reject_at_end else 0)
        self.frame()

    def frame(self):
        options = self.analysis.options
        if not options.anchored:
            self.code += ["SplitUnanchored(3,1)", "Any", "Jmp(0)"]
        if not options.explicit_group_0:
            self.code.append("Save(0)")
        self.write(self.analysis.tree, True)
        if not options.explicit_group_0:
            self.code.append("Save(1)")
        if options.reject_at_end:
            self.code.append("Reject")
        self.code.append("End")

    # places and slots

    def fresh(self):
        self.slot += 1
        return self.slot - 1

    def later(self):
        """Room for an instruction whose target comes later."""
        self.code.append(None)
        if self.most is not None and len(self.code) > self.most:
            raise OverflowError
        return len(self.code) - 1

    def here(self):
        return len(self.code)

    def split(self, at, lazy=False):
        """Fills a split that goes on behind itself first, or here; where it is lazy the other way round."""
        ways = (at + 1, self.here())
        self.code[at] = "Split(%d,%d)" % (ways[::-1] if lazy else ways)

    # nodes

    def write(self, node, easy):
        """The node in an easy context or in a hard one."""
        if easy and not node.hard:
            self.code += batch([node])
        else:
            getattr(self, "write_" + node.kind)(node, easy)

    def write_empty(self, node, easy):
        pass

    write_define = write_empty

    def write_literal(self, node, easy):
        self.code += batch([node])

    write_any = write_set = write_literal

    def write_bytes(self, node, easy):
        self.code.append(f"Lit({node.text})")

    def write_assertion(self, node, easy):
        self.code.append(f"Assertion({assertion_name(node)})")

    def write_newline(self, node, easy):
        self.code.append("BeginAtomic")
        split = self.later()
        self.code.append("Lit(\\r\\n)")
        jump = self.later()
        self.split(split)
        self.code.append("CharClass(Newline)")
        self.code[jump] = f"Jmp({self.here()})"
        self.code.append("EndAtomic")

    def write_cat(self, node, easy):
        children = list(node.children)
        prefix, suffix = [], []
        while children and not children[0].hard and children[0].size[2]:
            prefix.append(children.pop(0))
        while children and not children[-1].hard and (easy or children[-1].size[2]):
            suffix.insert(0, children.pop())
        self.code += batch(prefix)
        for child in children:
            self.write(child, False)
        self.code += batch(suffix)

    def branches(self, writers):
        """One after another, each but the last behind a split and before a jump to the end."""
        jumps = []
        for writer in writers[:-1]:
            split = self.later()
            writer()
            jumps.append(self.later())
            self.split(split)
        writers[-1]()
        for jump in jumps:
            self.code[jump] = f"Jmp({self.here()})"

    def write_alt(self, node, easy):
        self.branches([lambda child=child: self.write(child, easy) for child in node.children])

    def write_grp(self, node, easy):
        group, slot = node.start_group, self.fresh()
        self.code.append(f"SCGS{{{group},{slot}}}")
        self.write(node.children[0], easy and group not in self.analysis.read)
        self.code.append(f"SCG{{{group},{slot}}}")

    def write_call(self, node, easy):
        target = node.number
        if target != 0 and target not in self.analysis.groups:
            self.refused.add("SubroutineCallTargetNotFound")
            return
        if self.open_calls.get(target, 0) == MOST_CALLS:
            self.code.append("Fail")
            return
        self.open_calls[target] = self.open_calls.get(target, 0) + 1
        if target == 0:
            self.write(self.analysis.tree, easy)
        else:
            self.write_grp(self.analysis.groups[target], easy)
        self.open_calls[target] -= 1

    def write_rep(self, node, easy):
        body = node.children[0]
        if node.hi == 0:
            return
        if (node.lo, node.hi) == (0, 1):
            split = self.later()
            self.write(body, easy)
            self.split(split, node.lazy)
            return
        easy = easy and not node.hard
        if node.hi == UNBOUNDED and body.size[0] == 0:
            self.counted(node, easy, "RepeatEpsilon", lambda: [self.fresh()])
        elif node.hi == UNBOUNDED and node.lo == 0:
            split = self.later()
            self.write(body, easy)
            self.code.append(f"Jmp({split})")
            self.split(split, node.lazy)
        elif node.hi == UNBOUNDED and node.lo == 1:
            first = self.here()
            self.write(body, easy)
            ways = (first, self.here() + 1)
            self.code.append("Split(%d,%d)" % (ways[::-1] if node.lazy else ways))
        else:
            self.counted(node, easy, "Repeat", list)

    def counted(self, node, easy, name, more_slots):
        """A loop with a slot for its count, and the further slots."""
        repeat = self.fresh()
        slots = [repeat, *more_slots()]
        self.code.append(f"Save0({repeat})")
        head = self.later()
        self.write(node.children[0], easy)
        self.code.append(f"Jmp({head})")
        bounds = [node.lo] if name == "RepeatEpsilon" else [node.lo, node.hi]
        numbers = ",".join(map(str, [*bounds, self.here(), *slots]))
        self.code[head] = f"{name}{'Ng' if node.lazy else 'Gr'}{{{numbers}}}"

    # look-arounds

    def write_look(self, node, easy):
        body = node.children[0]
        if not node.ahead and not body.size[2]:
            self.write_behind_by_branches(node, body)
        else:
            self.look(node, body)

    def write_behind_by_branches(self, node, body):
        if body.kind != "alt" or not all(branch.size[2] for branch in body.children):
            self.refused.add("VariableLookBehindRequiresFeature")
            return
        writers = [lambda branch=branch: self.look(node, branch) for branch in body.children]
        if node.negative:
            for writer in writers:
                writer()
        else:
            self.branches(writers)

    def look(self, node, body):
        """A look-around with this body."""
        if node.negative:
            self.negative_look(node, body)
            return
        slot = self.fresh()
        self.code.append(f"Save({slot})")
        self.inner(node, body)
        self.code.append(f"Restore({slot})")

    def negative_look(self, node, body):
        split = self.later()
        self.inner(node, body)
        self.code.append("FailNegativeLookAround")
        self.split(split)

    def inner(self, node, body):
        if not node.ahead:
            self.code.append(f"GoBack({body.size[0]})")
        self.write(body, True)

    # the rest

    def write_ref(self, node, easy):
        self.code.append(f"Backref({2 * node.number})")

    def write_has(self, node, easy):
        self.code.append(f"Exists({node.number})")

    def write_haslevel(self, node, easy):
        self.refused.add(NOT_YET)

    def write_verb(self, node, easy):
        if node.text == "fail":
            self.code.append("Fail")
        else:
            self.refused.add(NOT_YET)

    def write_absexp(self, node, easy):
        self.refused.add(NOT_YET)

    write_absstop = write_absclear = write_absexp

    def write_atom(self, node, easy):
        self.code.append("BeginAtomic")
        self.write(node.children[0], True)
        self.code.append("EndAtomic")

    def write_keep(self, node, easy):
        self.code.append("Save(0)")

    def write_cont(self, node, easy):
        self.code.append(f"Cont{{{str(node.at_start).lower()}}}")

    def conditional(self, condition, yes, no):
        self.code.append("BeginAtomic")
        split = self.later()
        condition()
        self.code.append("EndAtomic")
        yes()
        jump = self.later()
        self.split(split)
        self.code.append("EndAtomic")
        no()
        self.code[jump] = f"Jmp({self.here()})"

    def write_if(self, node, easy):
        self.conditional(*[lambda child=child: self.write(child, easy) for child in node.children])

    def write_absent(self, node, easy):
        body = node.children[0]
        if not body.hard:
            self.code.append(delegate("AbsentRepeater", [body]))
            return
        if any(below.kind in ABSENT for below in body.walk()):
            self.refused.add(NOT_YET)
            return
        repeat, check = self.fresh(), self.fresh()
        self.code.append(f"Save0({repeat})")
        head = self.later()
        body_is_absent = self.look_ahead_without(body)
        self.conditional(body_is_absent, lambda: self.code.append("Any"), lambda: None)
        self.code.append(f"Jmp({head})")
        self.code[head] = f"RepeatEpsilonGr{{0,{self.here()},{repeat},{check}}}"

    def look_ahead_without(self, body):
        def write():
            split = self.later()
            self.write(body, True)
            self.code.append("FailNegativeLookAround")
            self.split(split)

        return write


def program(tree, options, most=None):
    """The listing of the tree's program, or the refusals that hold. A program of more instructions is an OverflowError."""
    analysis = Analysis(tree, options)
    refused = analysis.refusals_of_analysis()
    if refused:
        return None, refused
    writer = Writer(analysis, most)
    return writer.code, writer.refused
