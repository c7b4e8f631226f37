"""Patterns of packages of Debian, each read from the package's own files; nothing is installed and nothing of it runs but
the imports of pygments and fail2ban, which have their patterns in Python."""
import configparser
import importlib
import json
import logging
import re
import subprocess
import sys
from pathlib import Path

from .instructions import Missing

PYTHON = "usr/lib/python3/dist-packages"
SHORTEST, LONGEST = 4, 3000
MODULES = 24  # of pygments, whose 240 take more than a minute to import


def unpacked(name, folder):
    """The folder of an unpacked package, which apt-get downloads if it is not there."""
    there = Path(folder) / name
    if not there.is_dir():
        debs = Path(folder) / "debs"
        debs.mkdir(parents=True, exist_ok=True)
        got = subprocess.run(["apt-get", "download", "-q", name], cwd=debs, capture_output=True, text=True)
        files = sorted(debs.glob(f"{name}_*.deb"))
        if not files:
            raise Missing(f"{name} cannot be downloaded: {got.stderr.strip()}")
        subprocess.run(["dpkg", "-x", files[-1], there], check=True)
    return there


def flagged(letters, pattern):
    return f"(?{''.join(sorted(letters))}){pattern}" if letters else pattern


def lexers(package, source):
    """The patterns of the token tables of some lexers of pygments, with the flags of each lexer."""
    sys.path.insert(0, str(package / PYTHON))
    from pygments.lexer import RegexLexer, words
    from pygments.lexers._mapping import LEXERS

    modules = source.sample(sorted({it[0] for it in LEXERS.values()}), MODULES)
    for module in map(importlib.import_module, modules):
        for name, lexer in sorted(vars(module).items()):
            if not isinstance(lexer, type) or not issubclass(lexer, RegexLexer) or lexer.__module__ != module.__name__:
                continue
            flags = [it for it in "imsx" if lexer.flags & getattr(re, it.upper())]
            for rules in vars(lexer).get("tokens", {}).values():
                for first in (it[0] for it in rules if isinstance(it, tuple)):
                    pattern = first.get() if isinstance(first, words) else first
                    if isinstance(pattern, str):
                        yield flagged(flags, pattern)


def values(grammar):
    """The patterns of a grammar for editors, wherever they are in it."""
    if isinstance(grammar, dict):
        for key, value in grammar.items():
            if isinstance(value, str) and key in ("match", "begin", "end", "while"):
                yield value
            elif isinstance(value, (dict, list)):
                yield from values(value)
    elif isinstance(grammar, list):
        for value in grammar:
            yield from values(value)


def grammars(package, source):
    """The patterns of the grammars of linguist, in JSON. ^ and $ are those of lines for them."""
    for file in sorted(package.glob("usr/**/grammars/*.json")):
        for pattern in values(json.loads(file.read_text(encoding="utf-8"))):
            yield flagged("m", pattern)


def rules(package, source):
    """The lines of logcheck's rules, each a pattern for a line of a log."""
    for file in sorted(package.glob("etc/logcheck/*.d*/*")):
        for line in file.read_text(encoding="utf-8", errors="ignore").splitlines():
            if line and not line.startswith("#"):
                yield flagged("m", line)


def filters(package, source):
    """The patterns of fail2ban's filters for lines of a log, with its tags written out by its own reader."""
    sys.path.insert(0, str(package / PYTHON))
    from fail2ban.client.filterreader import FilterReader
    from fail2ban.server.failregex import Regex

    logging.disable(logging.CRITICAL)
    folder = package / "etc/fail2ban"
    for file in sorted(folder.glob("filter.d/*.conf")):
        reader = FilterReader(file.stem, "jail", {}, basedir=str(folder))
        try:
            reader.read()
            reader.getOptions(None)
            said = reader.convert()
        except configparser.Error:  # a filter that its own reader refuses
            continue
        for words in said:
            if words[2] in ("addfailregex", "addignoreregex", "prefregex"):
                for pattern in words[3] if isinstance(words[3], list) else [words[3]]:
                    yield flagged("m", Regex(pattern).getRegex())


def probes(package, source):
    """The patterns for replies of services, by nmap. A text has an answer on each line, so ^ and $ are those of lines."""
    file = package / "usr/share/nmap/nmap-service-probes"
    for line in file.read_text(encoding="latin-1").splitlines():
        found = re.match(r"(?:soft)?match \S+ m(.)(.*?)\1([is]*)(?: |$)", line)
        if found:
            yield flagged("m" + found[3], found[2])


READERS = {
    "python3-pygments": lexers,
    "ruby-github-linguist": grammars,
    "logcheck-database": rules,
    "fail2ban": filters,
    "nmap-common": probes,
}


def patterns(name, folder, source):
    """The patterns of a package, no one twice, in an order by chance."""
    found = sorted(set(READERS[name](unpacked(name, folder), source)))
    found = [it for it in found if SHORTEST <= len(it) <= LONGEST]
    source.shuffle(found)
    return found
