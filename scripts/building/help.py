"""Manual pages and completions of a program, made from what its `--help` prints.

The help has the layout of clap: what the program does, `Usage:`, and below `Commands:`, `Arguments:` and `Options:` a line
for each. What follows them is printed as it is.
"""
import re
from collections import namedtuple

from .kit import ROOT, Failure, run

# A program, or a part of one: `options` have a letter, a name and what is written for them, each of which may be empty.
Command = namedtuple("Command", "name about usage arguments options parts after")
Option = namedtuple("Option", "letter name value text")

# The sources that match the options of a program whose help does not list them.
OPTIONS_OF = {"fancyrun": "fancy_command/src/arguments.rt"}
ENTRY = re.compile(r"  +(\S.*?)(?:  +(\S.*))?$")


# ---- Reading the help


def blocks(text):
    """The parts of a help: their headings, "" if there is none, and their lines."""
    for block in text.strip("\n").split("\n\n"):
        lines = block.split("\n")
        is_headed = lines[0] in ("Commands:", "Arguments:", "Options:")
        yield lines[0].rstrip(":") if is_headed else "", lines[1:] if is_headed else lines


def entries(lines):
    """The entries of a list: what is named, and what is said of it, on its line or on the next ones."""
    found = []
    for line in lines:
        entry = ENTRY.match(line)
        if entry and (not found or len(line) - len(line.lstrip()) < 10):
            found.append([entry[1], entry[2] or ""])
        elif found:
            found[-1][1] = f"{found[-1][1]} {line.strip()}".strip()
    return [tuple(it) for it in found]


def option_of(named, text):
    """An option by what stands for it, such as `-A, --after-context <N>` or `--color[=<WHEN>]`."""
    found = (re.search(it, named) for it in (r"^-(\w)\b", r"--([\w-]+)", r"<([\w.]+)>"))
    return Option(*(it[1] if it else "" for it in found), text)


def command_of(name, text):
    """The program or part whose help this is, without its parts."""
    found = {"Commands": [], "Arguments": [], "Options": []}
    prose, usage = [], ""
    for heading, lines in blocks(text):
        if heading:
            found[heading] += entries(lines)
        elif lines[0].lower().startswith("usage:"):
            usage = " ".join(it.strip() for it in lines)[len("usage:") :].strip()
        else:
            prose.append(" ".join(lines))
    about, after = (prose[0] if prose else ""), prose[1:]
    options = [option_of(*it) for it in found["Options"]]
    return Command(name, about, usage, found["Arguments"], options, found["Commands"], after)


def help_of(program, *words):
    ran = run([program, *words, "--help"])
    if "usage:" not in ran.stdout.lower():
        raise Failure(f"{program.name} {' '.join(words)} --help does not say how it is called:\n{ran.stdout}")
    return ran.stdout


def from_sources(command):
    """A program whose help says only how it is called: what its sources say it does, and the options that they match."""
    sources = ROOT / "crates"
    about = re.match(r"//! ([^:.]*)", (sources / command.name / "src/main.rt").read_text(encoding="utf-8"))
    words = re.findall(r'"--([\w-]+)" => Some\((\w+)::', (sources / OPTIONS_OF[command.name]).read_text(encoding="utf-8"))
    options = [Option("", word, "N" if kind == "Limit" else "", "") for word, kind in words]
    return command._replace(about=about[1] if about else command.name, options=options)


def read(program):
    """A program with its parts, by the help of each."""
    whole = command_of(program.name, help_of(program))
    if program.name in OPTIONS_OF and not whole.options:
        whole = from_sources(whole)
    named = [name for name, _ in whole.parts if name != "help"]
    return whole._replace(parts=[command_of(it, help_of(program, it)) for it in named])


# ---- The manual page


def roff(text):
    """A text as roff has it."""
    text = text.replace("\\", "\\e").replace("-", "\\-")
    return "\\&" + text if text[:1] in (".", "'") else text


def tagged(options):
    for it in options:
        letter = [f"\\fB\\-{it.letter}\\fR"] if it.letter else []
        name = [f"\\fB\\-\\-{roff(it.name)}\\fR"] if it.name else []
        value = f" \\fI{it.value}\\fR" if it.value else ""
        yield f".TP\n{', '.join(letter + name)}{value}\n{roff(it.text)}"


def listed(command):
    """The arguments and options of a program or part."""
    yield from (f".TP\n\\fI{roff(name)}\\fR\n{roff(text)}" for name, text in command.arguments)
    yield from tagged(command.options)


def manual(command, version, date):
    """The manual page, in section 1."""
    lines = [f'.TH {command.name.upper()} 1 "{date}" "Vehkumil {version}" "User Commands"', ".SH NAME"]
    lines += [f"{command.name} \\- {roff(command.about[:1].lower() + command.about[1:])}", ".SH SYNOPSIS"]
    lines += [f".B {roff(command.usage)}", ".SH OPTIONS", *listed(command)]
    lines += [".SH COMMANDS"] if command.parts else []
    for part in command.parts:
        lines += [f".SS {command.name} {part.name}", roff(part.about), f".PP\n.B {roff(part.usage)}", *listed(part)]
    if command.after:
        lines += [".SH DESCRIPTION", "\n.PP\n".join(map(roff, command.after))]
    return "\n".join(lines) + "\n"


# ---- Completions


def words_of(options):
    return [f"-{it.letter}" for it in options if it.letter] + [f"--{it.name}" for it in options if it.name]


def takes_files(options):
    return [word for it in options if it.value == "FILE" for word in words_of([it])]


def bash(command):
    """The completion for bash: options and parts, and files for what takes them."""
    cases = "".join(f"        {it.name}) words='{' '.join(words_of(it.options))}' ;;\n" for it in command.parts)
    own = " ".join([*(it.name for it in command.parts), *words_of(command.options)])
    files = sorted({word for it in (command, *command.parts) for word in takes_files(it.options)})
    before = f"    case $before in {'|'.join(files)}) COMPREPLY=($(compgen -f -- \"$word\")); return ;; esac\n" if files else ""
    return (
        f"# Completion of {command.name} for bash, made from its --help.\n_{command.name}() {{\n"
        f"    local word=${{COMP_WORDS[COMP_CWORD]}} before=${{COMP_WORDS[COMP_CWORD - 1]}} words='{own}'\n{before}"
        + (f'    [ "$COMP_CWORD" -lt 2 ] || case ${{COMP_WORDS[1]}} in\n{cases}    esac\n' if cases else "")
        + '    if [[ $word == -* || "$COMP_CWORD" -lt 2 ]]; then\n        COMPREPLY=($(compgen -W "$words" -- "$word"))\n    fi\n'
        + '    [ ${#COMPREPLY[@]} -gt 0 ] || COMPREPLY=($(compgen -f -- "$word"))\n'
        + f"}}\ncomplete -o filenames -F _{command.name} {command.name}\n"
    )


def zsh_text(text):
    return text.replace("'", "'\\''").replace("[", "\\[").replace("]", "\\]").replace(":", "\\:")


def zsh_options(options):
    """The options as `_arguments` takes them."""
    for it in options:
        value = {"": "", "FILE": ":file:_files"}.get(it.value, f":{it.value.lower()}:")
        for word in words_of([it]):
            equals = "=" if value and word.startswith("--") else ""
            yield f"'{word}{equals}[{zsh_text(it.text)}]{value}'"


def zsh_arguments(command):
    return " \\\n        ".join(["_arguments -s", *zsh_options(command.options), "'*:file:_files'"])


def zsh(command):
    """The completion for zsh."""
    head = f"#compdef {command.name}\n# Completion of {command.name} for zsh, made from its --help.\n"
    if not command.parts:
        return f"{head}{zsh_arguments(command)}\n"
    parts = " ".join(f"'{it.name}:{zsh_text(it.about)}'" for it in command.parts)
    cases = "".join(f"    {it.name})\n        {zsh_arguments(it)} ;;\n" for it in command.parts)
    options = " ".join(zsh_options(command.options))
    return (
        f"{head}if (( CURRENT == 2 )); then\n    local -a parts=({parts})\n    _describe part parts\n"
        f"    _arguments {options}\n    return\nfi\nlocal part=$words[2]\nshift words\n(( CURRENT-- ))\ncase $part in\n{cases}esac\n"
    )


def fish_text(text):
    return "'" + text.replace("\\", "\\\\").replace("'", "\\'") + "'"


def fish_options(name, options, condition):
    for it in options:
        words = [f"-s {it.letter}"] * bool(it.letter) + [f"-l {it.name}"] * bool(it.name)
        value = {"": [], "FILE": ["-r", "-F"]}.get(it.value, ["-x"])
        yield " ".join([f"complete -c {name}", *condition, *words, *value, "-d", fish_text(it.text)])


def fish(command):
    """The completion for fish."""
    lines = [f"# Completion of {command.name} for fish, made from its --help."]
    first = ["-n", "__fish_use_subcommand"] if command.parts else []
    lines += fish_options(command.name, command.options, first)
    for part in command.parts:
        lines.append(f"complete -c {command.name} -f -n __fish_use_subcommand -a {part.name} -d {fish_text(part.about)}")
        lines += fish_options(command.name, part.options, ["-n", f"'__fish_seen_subcommand_from {part.name}'"])
    return "\n".join(lines) + "\n"


def pages(program, version, date):
    """The files of a program below a prefix: its manual page and its completions."""
    command = read(program)
    name = command.name
    return {
        f"share/man/man1/{name}.1": manual(command, version, date),
        f"share/bash-completion/completions/{name}": bash(command),
        f"share/zsh/site-functions/_{name}": zsh(command),
        f"share/fish/vendor_completions.d/{name}.fish": fish(command),
    }
