"""What `install` and `release` hand out: programs, the library for C, the package for Python and the crate for Rust."""
import importlib.util
import os
import re
import shutil
import site
import sysconfig
import zipfile
from pathlib import Path

from .help import pages
from .kit import ROOT, done, kit_folder

HOSTS = ROOT / "hosts"
PROGRAMS = ("fancyshow", "fancygrep", "fancyrun")
LIBRARY = "fancy_host"
RUST_TARGET = "x86_64-unknown-linux-gnu"


def version():
    return re.search(r'^#define FANCY_VERSION "(.*)"', (HOSTS / "fancy.h").read_text(), re.M)[1]


def install_program(file, prefix, date):
    """Installs a program with its manual page and its completions."""
    (prefix / "bin").mkdir(parents=True, exist_ok=True)
    program = prefix / "bin" / file.name
    program.unlink(missing_ok=True)
    shutil.copy(file, program)
    program.chmod(0o755)
    for name, text in pages(program, version(), date).items():
        (prefix / name).parent.mkdir(parents=True, exist_ok=True)
        (prefix / name).write_text(text)


def make_hosts(archive, *words):
    """Runs the Makefile of the hosts, which makes the libraries of an archive, and returns the folder of what it made."""
    made = ROOT / "out/hosts"
    # anew, since another archive may be older than what was made of the last one
    shutil.rmtree(made, ignore_errors=True)
    done(["make", "-C", HOSTS, f"ARCHIVE={archive}", f"KIT={kit_folder()}/c", f"BUILD={made}", *words])
    return made


def install_library(archive, prefix):
    make_hosts(archive, "install", f"PREFIX={prefix}")


# ---- Python


def backend():
    """The module that writes wheels."""
    spec = importlib.util.spec_from_file_location("backend", HOSTS / "python/build_wheel/backend.py")
    module = importlib.util.module_from_spec(spec)
    spec.loader.exec_module(module)
    return module


def write_wheel(archive, folder, about):
    """Writes a wheel with the library inside, and returns its file."""
    library = make_hosts(archive) / "libfancy.so"
    return folder / backend().build_wheel(folder, {"library": str(library), "about": about})


def packages_folder(prefix):
    """Where packages for Python are below a prefix; without one, those of the Python that runs."""
    if prefix is not None:
        return Path(sysconfig.get_path("purelib", "posix_prefix", {"base": str(prefix)}))
    own = Path(sysconfig.get_path("purelib"))
    return own if os.access(own, os.W_OK) else Path(site.getusersitepackages())


def install_wheel(wheel, packages):
    """Unpacks a wheel, which is all that its installation is, over an older one."""
    shutil.rmtree(packages / "fancy", ignore_errors=True)
    for older in packages.glob("fancy-*.dist-info"):
        shutil.rmtree(older)
    packages.mkdir(parents=True, exist_ok=True)
    with zipfile.ZipFile(wheel) as files:
        files.extractall(packages)


# ---- Rust


def write_crate(archive, folder, about):
    """Writes the crate with the static library inside, as a folder."""
    shutil.rmtree(folder, ignore_errors=True)
    shutil.copytree(HOSTS / "rust", folder, ignore=shutil.ignore_patterns("target", "of_fancy_regex"))
    native = folder / "fancy-sys/native" / RUST_TARGET
    native.mkdir(parents=True)
    shutil.copy(make_hosts(archive) / "libfancy.a", native)
    for name in ("LICENSE", "NOTICE"):
        shutil.copy(ROOT / name, folder / name)
    (folder / "BUILD").write_text(about)
