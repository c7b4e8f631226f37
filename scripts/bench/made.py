"""Everyday patterns made up of parts, and texts to fit, by a source of chance."""

WORDS = """time year people way day man thing woman life child world school state family student group country problem hand
part place case week company system program question work government number night point home water room mother area money
story fact month lot right study book eye job word business issue side kind head house service friend father power hour
game line end member law car city community name president team minute idea kid body information back parent face""".split()
NAMES = ["getUserName", "parseHTTPHeader", "max_retry_count", "i", "tmp", "isValid", "XMLHttpRequest", "user_id", "toString"]
KEYWORDS = ["if", "else", "while", "for", "return", "fn", "let", "struct", "enum", "import", "class", "def", "match", "type"]


# ---- texts


class Text:
    """Lines of a kind, by a source of chance."""

    def __init__(self, source):
        self.source = source

    def word(self):
        return self.source.choice(WORDS)

    def number(self, digits=4):
        return str(self.source.randrange(10 ** self.source.randint(1, digits)))

    def prose(self):
        words = [self.word() for _ in range(self.source.randint(4, 14))]
        if self.source.random() < 0.2:
            words.insert(2, words[1])
        return " ".join(words).capitalize() + self.source.choice([".", "!", "?", ",", ";"])

    def log(self):
        pick = self.source
        level = pick.choice(["INFO", "WARN", "ERROR", "DEBUG"])
        stamp = f"2026-{pick.randint(1, 12):02}-{pick.randint(1, 28):02}T{pick.randint(0, 23):02}:{pick.randint(0, 59):02}"
        address = ".".join(str(pick.randrange(256)) for _ in range(4))
        return f"{stamp} [{level}] {self.word()}.{self.word()}: {address} took {self.number()}ms, {self.word()}={self.number(7)}"

    def source_line(self):
        pick = self.source
        name = pick.choice(NAMES)
        return "    " * pick.randint(0, 3) + pick.choice([
            f"let {name} = {pick.choice(NAMES)}({self.number()}, \"{self.word()} \\\"{self.word()}\\\"\");",
            f"if {name} == {self.number()} {{ return {pick.choice(NAMES)}; }}",
            f"// {self.prose()}",
            f"{pick.choice(KEYWORDS)} {name}: {self.word()}<{pick.choice(NAMES)}> = '{self.word()}' + {self.number()}.{self.number(2)};",
            f"x[{self.number(2)}] /* {self.word()} */ += 0x{pick.randrange(65536):x};",
        ])

    def markup(self):
        pick = self.source
        tag = pick.choice(["p", "div", "b", "li", "h1", "span"])
        other = tag if pick.random() < 0.8 else "i"
        return f"<{tag} class=\"{self.word()}\" id='{self.word()}{self.number(2)}'>{self.prose()} <{self.word()}/></{other}>"

    def table(self):
        fields = [self.source.choice([self.word(), self.number(6), f'"{self.word()}, {self.word()}"', ""]) for _ in range(6)]
        return ",".join(fields)

    def settings(self):
        return self.source.choice([
            f"{self.word()}.{self.word()} = {self.word()} ; {self.word()}",
            f"[{self.word()}]",
            f"{self.word()}: {self.number(7)} # {self.word()}",
            f"mail = {self.word()}@{self.word()}.com, http://{self.word()}.org/{self.word()}?q={self.number()}",
            f"  $({self.word()})  ${{{self.word()}}}  ${self.number(6)}.{self.source.randrange(100):02}  ",
        ])

    def lines(self, kind, size):
        out, length = [], 0
        while length < size:
            out.append(getattr(self, kind)())
            length += len(out[-1]) + 1
        return "\n".join(out)


# ---- patterns


class Parts:
    """Parts of patterns, by a source of chance."""

    def __init__(self, source):
        self.source = source

    def of(self, *choices):
        return self.source.choice(choices)

    def words(self, count):
        return "|".join(sorted(self.source.sample(WORDS, count)))

    def keywords(self, count):
        return "|".join(self.source.sample(KEYWORDS, count))

    def times(self):
        return self.of("+", "*", "+?", f"{{1,{self.source.randint(2, 9)}}}", f"{{{self.source.randint(2, 4)},}}")

    def letters(self):
        return self.of("[a-z]", "[A-Za-z]", r"\w", "[a-z_]", r"[^\W\d]", "[[:alpha:]]")

    def mark(self):
        return self.of(",", ";", ":", "=", r"\.", "/", "-", "@", " ")

    # easy ones

    def field(self):
        name, mark = self.of(r"(\w+)", "([a-z]+)", r"(?<key>\w+)", r"\w+"), self.of("=", ":", " = ", r"\s*[:=]\s*")
        return "table settings log", name + mark + self.of(r"(\d+)", r"([^,;\n]*)", r"(\S+)", r"\d+")

    def quoted(self):
        return "source_line markup table", self.of(r'"[^"]*"', r'"(?:[^"\\]|\\.)*"', r"'([^']*)'", r'"([^"\\]*(?:\\.[^"\\]*)*)"', '".*?"')

    def keyword(self):
        return "source_line prose", self.of(r"\b(?:%s)\b", r"(%s)\s+(\w+)", r"(?i)\b(%s)\b") % self.of(self.keywords(5), self.words(8))

    def number(self):
        return "log source_line settings", self.of(
            r"\d+", r"-?\d+(?:\.\d+)?", r"0x[0-9a-fA-F]+", r"\b\d{1,3}(?:\.\d{1,3}){3}\b", r"\d{4}-\d\d-\d\d", r"\$(\d+)\.(\d\d)",
            r"(\d+)ms", r"(\d{4})-(\d{2})-(\d{2})T(\d{2}):(\d{2})",
        )

    def separated(self):
        mark = self.mark()
        body = self.letters() + self.times()
        return "log settings table prose", f"{body}(?:{mark}{body}){self.of('', '+', '*', '?')}"

    def line(self):
        return "settings source_line log", self.of(
            r"(?m)^\s*#?.*$", r"(?m)^\s+|\s+$", r"(?m)^(\w+)\s*[:=]\s*(.*)$", r"(?m)^\[([^\]]+)\]", r"//.*", r"(?m);\s*(\w+)$", r"/\*.*?\*/",
        )

    def address(self):
        return "settings log", self.of(r"[\w.]+@[\w.]+\.\w+", r"https?://[^\s/]+(?:/\S*)?", r"\bERROR\b.*", r"\[(INFO|WARN|ERROR)\]\s+(\S+)")

    def name(self):
        return "source_line prose", self.of(r"[A-Z][a-z]+", r"\b[a-z]+(?:[A-Z][a-z]*)+\b", r"\b[a-z]+(?:_[a-z]+)+\b", r"\b\w{%d,}\b" % self.source.randint(5, 9))

    # hard ones

    def ahead(self):
        return "source_line log settings prose", self.of(
            r"\w+(?=\()", r"\d+(?=ms)", r"\b(?!%s)\w+\b" % self.keywords(3), r"\w+(?!\w|\()", r"^(?=.*\d)(?=.*[a-z]).{8,}$",
            r"(?m)^(?!\s*//).*$", r"[a-z]+(?=%s)" % self.mark(), r"(?:(?!%s).)+" % self.mark(),
        )

    def behind(self):
        return "source_line settings log table", self.of(
            r"(?<=\$)\d+", r"(?<![\w.])\d+(?![\w.])", r"(?<=[a-z])(?=[A-Z])", r"(?<=%s)\w+" % self.mark(), r"(?<!\\)\"", r"(?<=\d)(?=(?:\d{3})+\b)",
            r"(?<=\[)\w+(?=\])", r"(?<!%s)\b[a-z]+" % self.mark(), r"(?<=^|,)[^,\n]*", r"(?<=let )\w+",
        )

    def reference(self):
        return "prose markup source_line", self.of(
            r"\b(\w+)\s+\1\b", r"(\w)\1", r"(['\"]).*?\1", r"<(\w+)[^>]*>.*?</\1>", r"(?<q>[\"'])(?:(?!\k<q>).)*\k<q>", r"(?i)\b(\w)\w*\1\b",
        )

    def atomic(self):
        return "table log source_line", self.of(
            r"(?>[^,\n]*),", r"\w++%s" % self.mark(), r"\"(?>[^\"\\]|\\.)*\"", r"[a-z]++(?=\()", r"\d*+\.", r"(?>\w+\s?)+[.:]",
        )

    def other(self):
        return "source_line markup settings", self.of(
            r"\w+\s*=\s*\K\w+", r"\((?:[^()]++|\g<0>)*\)", r"(<)?\w+(?(1)[^>]*>|;)", r"\$\{\K\w+", r"(\[)?\d+(?(1)\])",
        )


KINDS = "field quoted keyword number separated line address name ahead behind reference atomic other".split()


def patterns(source, count):
    """Patterns, no one twice, with the kinds of text that fit."""
    parts, found = Parts(source), {}
    while len(found) < count:
        kinds, pattern = getattr(parts, source.choice(KINDS))()
        found.setdefault(pattern, kinds)
    return found
