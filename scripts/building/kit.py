"""The Rattle kit: where it is, and its commands."""
import shutil
import subprocess
from pathlib import Path

ROOT = Path(__file__).resolve().parent.parent.parent
TARGET = "x86_64-unknown-linux-gnu"


class Failure(Exception):
    """A message for the user."""


def run(words, **how):
    """Runs a command and returns its result, with what it printed."""
    how = {"stdin": subprocess.DEVNULL, "stdout": subprocess.PIPE, "stderr": subprocess.STDOUT, **how}
    try:
        return subprocess.run([str(it) for it in words], text=True, errors="replace", **how)
    except OSError as error:
        raise Failure(f"{words[0]} does not start: {error}") from None


def done(words, **how):
    """Runs a command that has to succeed, and returns what it printed."""
    ran = run(words, **how)
    if ran.returncode:
        raise Failure(f"{Path(str(words[0])).name} failed:\n{ran.stdout[-3000:]}")
    return ran.stdout


def kit_folder():
    """The folder of the kit, by its command `rt`."""
    if not shutil.which("rt"):
        raise Failure("the command `rt` of the Rattle kit is not in PATH")
    ran = run(["rt", "doc"])
    if ran.returncode:
        raise Failure(f"`rt doc` does not say where the kit is:\n{ran.stdout}")
    return Path(ran.stdout.strip()).parent


def kit_name():
    """The name and version of the kit, as `rt version` prints it."""
    return done(["rt", "version"]).strip()


def clang(kit, words):
    """Runs the kit's clang on a module."""
    ran = run([kit / "toolchain/bin/clang", *words])
    if ran.returncode:
        raise Failure(f"the kit's clang does not take the module. It says:\n{ran.stdout[:2000]}")
