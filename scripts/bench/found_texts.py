"""Texts of a kind from files of the machine, of the repository and of unpacked packages, by a source of chance."""
import gettext
import gzip
import os
from functools import lru_cache
from pathlib import Path

from .samples import sample

ROOT = Path(__file__).resolve().parent.parent.parent
# folders, of the machine or below the unpacked packages (@) or the repository (.), and the ends of the names of files
FILES = {
    "documentation": [
        ("/usr/share/doc", ("README.gz", "README", ".txt", ".txt.gz", ".md", ".rst", "NEWS.gz", "copyright")),
        ("/usr/share/common-licenses", ("",)),
        ("/usr/share/man/man1", (".gz",)),
        ("/usr/share/man/man3", (".gz",)),
        ("./docs", (".md",)),
    ],
    "sources": [
        ("/usr/lib/python3", (".py",)),
        ("/usr/include", (".h",)),
        ("/usr/share/perl", (".pm",)),
        ("/usr/share/bash-completion", ("",)),
        ("@/nmap-common", (".lua", ".nse")),
        ("@/python3-pygments", (".py",)),
        ("@/ruby-github-linguist", (".rb",)),
        ("./crates", (".rt",)),
        ("./scripts", (".py",)),
        ("./hosts", (".c", ".h", ".rs")),
    ],
    "json": [
        ("/usr/share/cmake-3.25", (".json",)),
        ("/usr/share/iso-codes", (".json",)),
        ("@/ruby-github-linguist", (".json",)),
        (".", (".json",)),
    ],
    "html": [("/usr/share/doc", (".html",)), ("/usr/share/gtk-doc", (".html",)), ("/usr/share/xml", (".xml", ".xsl"))],
    "csv": [("./results", (".csv",)), ("/usr/share/distro-info", (".csv",))],
    "logs": [("/var/log", (".log",)), ("@/fail2ban/usr/lib/python3/dist-packages/fail2ban/tests/files/logs", ("",))],
}
# one language for each of five scripts
LANGUAGES = ["de", "el", "ru", "ar", "ja"]
LEAST = 1000


@lru_cache(maxsize=None)
def files(kind, packages):
    """The files of a kind that have at least some text, by folder."""
    found = []
    for folder, ends in FILES[kind]:
        folder = folder.replace("@", str(packages), 1) if folder[0] == "@" else ROOT / folder
        inside = [Path(at) / it for at, _, names in os.walk(folder) for it in names if it.endswith(ends)]
        inside = [it for it in inside if "out" not in it.relative_to(folder).parts and it.is_file()]
        found.append(sorted(it for it in inside if it.stat().st_size >= LEAST))
    return list(filter(None, found))


def read(file):
    opened = gzip.open if file.suffix == ".gz" else open
    with opened(file, "rb") as stream:
        return stream.read().decode("utf-8", errors="ignore").replace("\0", "")


@lru_cache(maxsize=None)
def messages(language):
    """The longer translated messages of the machine's programs."""
    found = []
    for file in sorted(Path("/usr/share/locale", language, "LC_MESSAGES").glob("*.mo")):
        try:
            with open(file, "rb") as stream:
                catalog = gettext.GNUTranslations(stream)._catalog
        except (OSError, ValueError, LookupError):  # a file whose header is wrong
            continue
        found += [it for it in catalog.values() if isinstance(it, str) and len(it) > 40]
    return found


@lru_cache(maxsize=None)
def log_lines(packages):
    return [line for folder in files("logs", packages) for file in folder for line in read(file).splitlines()]


class Texts:
    """Makes texts: `packages` is the folder of unpacked packages, `source` the source of chance."""

    def __init__(self, packages, source):
        self.packages, self.source = packages, source

    def cut(self, text, size):
        return text.encode()[:size].decode(errors="ignore").rstrip("\n")

    def of(self, kind, size):
        """A text of some size: windows of files, or for logs and prose lines in an order by chance.

        A machine without translations has documentation for prose.
        """
        if kind == "prose" and any(map(messages, LANGUAGES)):
            return self.mixed(messages(self.source.choice(list(filter(messages, LANGUAGES)))), size)
        if kind == "logs":
            return self.mixed(log_lines(self.packages), size)
        folders, out = files(kind if kind in FILES else "documentation", self.packages), ""
        while len(out.encode()) < size:
            text = read(self.source.choice(self.source.choice(folders)))
            start = self.source.randrange(1 + max(0, len(text) - size // 2))
            out += text[text.rfind("\n", 0, start) + 1 :][: size // 2] + "\n"
        return self.cut(out, size)

    def mixed(self, lines, size):
        """Lines by chance, enough of them if they have 20 letters each."""
        return self.cut("\n".join(self.source.choice(lines) for _ in range(-(-size // 20))), size)

    def answers(self, pattern, patterns, size):
        """Lines that patterns of a package match, one in ten of them for `pattern`, and one in three of a log."""
        logs, out, length = log_lines(self.packages), [], 0
        while length < size:
            of = pattern if self.source.random() < 0.1 else self.source.choice(patterns)
            line = self.source.choice(logs) if self.source.random() < 0.33 else sample(of, self.source)
            if line:
                out.append(line)
                length += len(line.encode()) + 1
        return self.cut("\n".join(out), size)
