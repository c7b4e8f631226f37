"""The table of the defaults of limits, read from the sources."""
import re

# The columns: what has the defaults, and the files that have them, the first that names a limit counting. `Regex` of
# fancy_matches has those of its own where it is not asked for others.
MATCHES = "fancy_matches/src/options.rt"
REGEX = "fancy_regex/src/options.rt"
COMMAND = "fancy_command/src/arguments.rt"
COLUMNS = {
    "`Regex` and `Scanner` of `fancy_regex`": (REGEX, MATCHES),
    "C, Rust, Python": ("fancy_host/src/options.rt", MATCHES),
    "`fancyshow`": ("fancyshow/src/request.rt", COMMAND, MATCHES),
    "`fancygrep`, each line": ("fancy_grep/src/patterns.rt", REGEX, MATCHES),
    "`search`, `run`, `Compiled`": ("fancy_steps/src/options.rt",),
    "`fancyrun`": (COMMAND,),
}
# The rows: the limit, and what may be its name in the sources.
ROWS = {
    "backtrack_limit": ("backtrack_limit", "MOST_BACKTRACKS", "backtracks"),
    "step_limit": ("step_limit", "MOST_STEPS"),
    "visit_limit": ("visit_limit", "MOST_VISITS"),
    "memory_limit": ("memory_limit", "MOST_MEMORY", "MOST_BYTES"),
    "max_prog_size": ("max_prog_size", "MOST_INSTRUCTIONS"),
    "max_nesting": ("MOST_NESTING", "max_nesting"),
    "analysis_limit": ("analysis_limit", "MOST_ANALYSED"),
}
VALUE = r"(?:: \w+ = |: |\.unwrap_or\()(?:Some\()?(\d[\d_]*)"
# Limits that grow with the text: how much for each start, and how the sources say it of the text and its end.
GROWING = {
    "backtrack_limit": (1, "one more", r"text\.len\(\)\.saturating_add\(([\d_]+)\)"),
    "step_limit": (8, "eight more", r"\.saturating_mul\(8\)\s*\.saturating_add\(([\d_]+)\)"),
}


def number(text):
    return int(text.replace("_", ""))


def shown(value):
    """A number as a reader takes it: 256 MiB, 100,000."""
    return f"{value >> 20} MiB" if value >= 1 << 20 and value % (1 << 20) == 0 else f"{value:,}"


def defaults_of(text):
    """What a source says of defaults: its constants and its `fn default` or `fn from_pos`; all of it if it has neither."""
    body = re.search(r"(?ms)fn (?:default|from_pos)\(.*?^    \}$", text)
    return "\n".join(re.findall(r"(?m)^(?:pub )?const .*$", text)) + body[0] if body else text


def default_in(text, limit, is_for_starts):
    """The default of a limit in the text of a source, "" if it has none."""
    for name in ROWS[limit]:
        found = re.search(rf"\b{name}{VALUE}", defaults_of(text))
        if found:
            return shown(number(found[1]))
    if is_for_starts and limit in GROWING:
        each, words, pattern = GROWING[limit]
        found = re.search(pattern, text)
        return f"{number(found[1]) - each:,}, and {words} for each start" if found else ""
    return ""


def default(crates, files, limit):
    for file in filter(lambda it: (crates / it).is_file(), files):
        text = (crates / file).read_text(encoding="utf-8")
        # fancyrun's own defaults of a search are not those of fancyshow, which takes its words
        if file == COMMAND and files[0] != COMMAND and limit != "max_nesting":
            continue
        found = default_in(text, limit, file == MATCHES)
        if found:
            return found
    return "none"


def table(crates):
    yield "| Limit | " + " | ".join(COLUMNS) + " |"
    yield "|---|" + "---|" * len(COLUMNS)
    for limit in ROWS:
        yield f"| `{limit}` | " + " | ".join(default(crates, files, limit) for files in COLUMNS.values()) + " |"
