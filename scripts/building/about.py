"""What is said of a build: its version, its commit, and whether it is proved."""
import platform
import time

from .kit import ROOT, kit_name, run
from .parts import version


def git(*words):
    ran = run(["git", "-C", ROOT, *words])
    return ran.stdout.strip() if ran.returncode == 0 else ""


def commit():
    """The commit of the sources, and that they were changed since."""
    named = git("rev-parse", "--short=8", "HEAD") or "unknown"
    return named + (" with changes" if git("status", "--porcelain", "--untracked-files=no") else "")


def commit_date():
    return git("log", "-1", "--format=%cs") or time.strftime("%Y-%m-%d")


def commit_time():
    """The time of the commit, in seconds."""
    return int(git("log", "-1", "--format=%ct") or 0)


def machine():
    """The processor and how many there are, as figures name a machine."""
    names = [it.split(":", 1)[1].strip() for it in open("/proc/cpuinfo") if it.startswith("model name")]
    return f"{len(names)} x {names[0]}" if names else platform.machine()


def about(is_proved):
    """The file BUILD of what is handed out."""
    how = "yes: each function meets its contract" if is_proved else "no: built without a proof, by scripts/quick_build"
    lines = {"version": version(), "commit": commit(), "proved": how, "kit": kit_name(), "licence": "MIT, see LICENSE and NOTICE"}
    return "".join(f"{name}: {text}\n" for name, text in lines.items())
