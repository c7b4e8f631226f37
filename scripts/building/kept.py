"""What was built, with the sums of the sources that it was built of: what has not changed is not built again.

It lies in the folder out/quick of the repository, which git does not see.
"""
import fcntl
import hashlib
import shutil
import tempfile
from concurrent.futures import ProcessPoolExecutor, as_completed
from contextlib import contextmanager
from pathlib import Path

from .copies import take
from .crates import below, is_library_for_c, listed
from .kit import ROOT, Failure, kit_folder, kit_name
from .library import write_archive, write_library_module
from .module import How, compile_module, link_program, write_module

KEPT = ROOT / "out/quick"
# a program that the gate does not prove: its sources end in .rattle, and `uses` is its line of crates.txt
BENCH = ROOT / "scripts/bench/fancy_bench"
# the files of this folder that decide how a module is compiled
HOW = [Path(__file__).with_name(it) for it in ("hints.py", "library.py", "module.py", "reached.py")]


def known():
    """What each crate that can be built names: those of crates.txt, and fancy_bench."""
    return {**listed(), BENCH.name: (BENCH / "uses").read_text().partition(":")[2].split()}


def sources(crate):
    """The files that a build of a crate reads, but for those of the kit."""
    names = known()
    if crate == BENCH.name:
        yield from sorted(BENCH.glob("*.rattle"))
    for name in (*below(crate, names), crate):
        for part in ("src/**/*.rt", "specs/**/*.antt"):
            yield from sorted((ROOT / "crates" / name).glob(part))


def sum_of_sources(crate, how=How()):
    """A sum over all that a build of a crate depends on."""
    names = known()
    text = hashlib.sha256(repr((kit_name(), tuple(how), [(it, names[it]) for it in (*below(crate, names), crate)])).encode())
    for file in (*sources(crate), *HOW):
        text.update(f"{file.relative_to(ROOT)}\n".encode())
        text.update(file.read_bytes())
    return text.hexdigest()


def is_program(crate):
    return crate == BENCH.name or (ROOT / "crates" / crate / "src/main.rt").is_file()


def copy_with_bench(folder):
    """Copies the crates below fancy_bench, with it among them. Returns its folder."""
    for crate in known()[BENCH.name]:
        take(crate, folder, ("src", "specs"))
    made = folder / "crates" / BENCH.name
    (made / "src").mkdir(parents=True)
    for file in BENCH.glob("*.rattle"):
        shutil.copy(file, (made / "src" / file.name).with_suffix(".rt"))
    with (folder / "crates.txt").open("a") as lines:
        lines.write((BENCH / "uses").read_text())
    return made


def build(crate, out, how, kept_module=None):
    """Builds a program, or the archive of a library for C, without proving it."""
    kit = kit_folder()
    with tempfile.TemporaryDirectory(prefix="quick-build-") as name:
        folder = Path(name)
        if is_program(crate):
            own = copy_with_bench(folder / "copy") if crate == BENCH.name else ROOT / "crates" / crate
            module, words = write_module(kit, own, folder, how)
        else:
            module, words = write_library_module(kit, folder, how)
        if kept_module:
            shutil.copy(module, kept_module)
        if is_program(crate):
            compile_module(kit, module, words, folder / "module.o")
            link_program(kit, folder / "module.o", folder / "program")
            shutil.copy(folder / "program", out)
        else:
            shutil.copy(write_archive(kit, module, words, folder), out)


def kept(crate):
    """Where what was built of a crate is kept, and the file of its sum."""
    name = crate if is_program(crate) else f"lib{crate}.a"
    return KEPT / name, KEPT / f"{name}.sum"


def is_kept(crate):
    file, noted = kept(crate)
    return file.is_file() and noted.is_file() and noted.read_text() == sum_of_sources(crate)


@contextmanager
def alone(crate):
    """Lets one process at a time build a crate: another then finds what this one kept."""
    KEPT.mkdir(parents=True, exist_ok=True)
    with open(KEPT / f"{crate}.lock", "w") as lock:
        fcntl.flock(lock, fcntl.LOCK_EX)
        yield


def build_kept(crate):
    """What a crate gives, built if its sources changed. Returns the file, and whether it was built now."""
    file, noted = kept(crate)
    with alone(crate):
        if is_kept(crate):
            return file, False
        sum_before = sum_of_sources(crate)
        noted.unlink(missing_ok=True)
        build(crate, file, How())
        # an edit during the build leaves it without a sum, so that it is built again
        if sum_of_sources(crate) == sum_before:
            noted.write_text(sum_before)
        return file, True


def build_all(crates, jobs, say):
    """Builds several crates side by side. Returns the file of each; `say` gets a line for each that is done."""
    files = {}
    # a process for each: the threads of one would make over one module at a time
    with ProcessPoolExecutor(jobs) as workers:
        builds = {workers.submit(build_kept, it): it for it in crates}
        for build_of in as_completed(builds):
            crate = builds[build_of]
            files[crate], is_new = build_of.result()
            say(f"{crate}: {'built' if is_new else 'as it was built before'}, NOT PROVED")
    return files


def proved(crate):
    """The program or the archive that `rt ci`, `rt run` or `rt lib` left of a crate."""
    name = crate if is_program(crate) else f"lib{crate}.a"
    file = ROOT / "crates" / crate / "out" / name
    how = "rt run" if is_program(crate) else "rt lib"
    if not file.is_file():
        raise Failure(f"{file.relative_to(ROOT)} is not there: run `{how}` in crates/{crate}, or `rt ci`")
    newer = [it for it in sources(crate) if it.stat().st_mtime > file.stat().st_mtime]
    if newer:
        raise Failure(f"{newer[0].relative_to(ROOT)} is newer than {file.relative_to(ROOT)}: run `{how}` in crates/{crate}")
    return file


def can_be_built(crate):
    return is_program(crate) or is_library_for_c(crate)
