"""Instructions of the processor that a driver takes, as valgrind counts them: they have no noise."""
import os
import re
import subprocess
from pathlib import Path

PEERS = Path(os.environ.get("PEERS_BUILD") or Path(__file__).resolve().parent.parent.parent / "out/peers") / "bin"


class Missing(Exception):
    """A driver that was not built, or a package that could not be downloaded."""


def driver(engine, peers=PEERS):
    """The driver of another engine."""
    file = Path(peers) / f"{engine}drv"
    if not file.is_file():
        raise Missing(f"{file} is not there: run scripts/bench/build")
    return file


def counted(command, seconds=None):
    """What a command prints, and its instructions; None for them if valgrind did not count, or not within `seconds`."""
    words = ["valgrind", "--tool=callgrind", "--callgrind-out-file=/dev/null", *map(str, command)]
    try:
        ran = subprocess.run(words, capture_output=True, text=True, timeout=seconds)
    except subprocess.TimeoutExpired:
        return "", None
    collected = re.search(r"Collected : (\d+)", ran.stderr)
    return ran.stdout, int(collected[1]) if collected else None


def measured(program, folder, name, pattern, text, mode="all", seconds=None, passes=(1, 3)):
    """What a driver answers, and its instructions in one pass: those that a run with more passes takes beyond one with fewer."""
    (folder / name).write_text(pattern)
    (folder / "text").write_text(text)
    counts, answer = [], None
    for count_of in passes:
        said, count = counted([program, mode, folder / name, folder / "text", 0, count_of], seconds)
        words = said.split()
        if count is None or len(words) < 6 or words[0].startswith("error"):
            return " ".join(words[:1]) or "no answer", None
        counts.append(count)
        answer = answer or tuple(words[:5])
    return answer, max(1, (counts[1] - counts[0]) // (passes[1] - passes[0]))
