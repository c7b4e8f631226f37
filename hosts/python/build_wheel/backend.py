"""Writes the package as a wheel, with Python's own library alone, so that `pip install` needs no network.

With `--config-settings library=FILE` the wheel has this libfancy.so inside, and the tag of the C library that it needs. Where
there are a C compiler, $CC or `cc`, and Python's headers, it has the extension too, in one build for Python 3.10 and later.
"""

import base64
import hashlib
import os
import re
import shlex
import shutil
import subprocess
import sys
import sysconfig
import tempfile
import zipfile
from pathlib import Path

ROOT = Path(__file__).resolve().parent.parent
LICENSE = ROOT.parent.parent / "LICENSE"


def fields():
    """The fields of pyproject.toml that are one quoted text on a line of their own."""
    text = (ROOT / "pyproject.toml").read_text(encoding="utf-8")
    return dict(re.findall(r'^([\w-]+) = "(.*)"$', text, re.M))


def metadata():
    of = fields()
    lines = [
        "Metadata-Version: 2.1",
        f"Name: {of['name']}",
        f"Version: {of['version']}",
        f"Summary: {of['description']}",
        "License: MIT",
        f"Requires-Python: {of['requires-python']}",
        "Description-Content-Type: text/markdown",
    ]
    return "\n".join(lines) + "\n\n" + (ROOT / "README.md").read_text(encoding="utf-8")


def extension():
    """The extension, as its file's bytes; None where it cannot be built, and the package calls the library by ctypes."""
    headers = [ROOT.parent, sysconfig.get_path("include"), sysconfig.get_path("platinclude")]
    compiler = shlex.split(os.environ.get("CC", "cc"))
    if sys.version_info < (3, 10) or sys.implementation.name != "cpython" or not shutil.which(compiler[0]):
        return None
    if not (ROOT.parent / "fancy.h").is_file() or not any(Path(it, "Python.h").is_file() for it in headers):
        return None
    words = ["-std=c11", "-O2", "-fPIC", "-shared", "-fvisibility=hidden", "-DPy_LIMITED_API=0x030A0000", "-Wl,-z,relro", "-Wl,-z,now"]
    words += [*(f"-I{it}" for it in headers), *shlex.split(os.environ.get("CFLAGS", ""))]
    with tempfile.TemporaryDirectory(prefix="fancy-") as folder:
        made = Path(folder) / "_core.abi3.so"
        # from their folder, so that no path of this machine is inside
        sources = sorted(it.name for it in (ROOT / "native").glob("*.c"))
        built = subprocess.run([*compiler, *words, "-o", made, *sources], cwd=ROOT / "native")
        return made.read_bytes() if built.returncode == 0 else None


def tag(files):
    """The platforms of a wheel: any without a file of machine code, and otherwise Linux with the C library that they need."""
    code = [data for name, data in files.items() if name.endswith(".so")]
    if not code:
        return "any"
    if "fancy/libfancy.so" not in files:
        return re.sub(r"\W", "_", sysconfig.get_platform())
    asked = re.findall(rb"GLIBC_2\.(\d+)", b"".join(code))
    # before 2.17 there is no name that all versions of pip know
    minor = max([17, *map(int, asked)])
    return f"manylinux_2_{minor}_x86_64" + (".manylinux2014_x86_64" if minor == 17 else "")


def sources(library):
    """The files of the package."""
    files = {f"fancy/{it.name}": it.read_bytes() for it in sorted((ROOT / "fancy").iterdir()) if it.suffix in (".py", ".pyi", ".typed")}
    if library is not None:
        files["fancy/libfancy.so"] = library.read_bytes()
    built = extension()
    if built is not None:
        files["fancy/_core.abi3.so"] = built
    return files


def about_wheel(platforms, is_pure):
    tags = "".join(f"Tag: py3-none-{it}\n" for it in platforms.split("."))
    return f"Wheel-Version: 1.0\nGenerator: fancy\nRoot-Is-Purelib: {str(is_pure).lower()}\n{tags}".encode()


def write_wheel(file, about, files):
    record = []
    with zipfile.ZipFile(file, "w", zipfile.ZIP_DEFLATED) as wheel:
        for path, data in files.items():
            # the same time in each wheel, so that equal sources make equal wheels
            wheel.writestr(zipfile.ZipInfo(path), data, zipfile.ZIP_DEFLATED)
            sum_of = base64.urlsafe_b64encode(hashlib.sha256(data).digest()).rstrip(b"=").decode()
            record.append(f"{path},sha256={sum_of},{len(data)}")
        record.append(f"{about}/RECORD,,")
        wheel.writestr(zipfile.ZipInfo(f"{about}/RECORD"), "\n".join(record) + "\n")


def build_wheel(wheel_directory, config_settings=None, metadata_directory=None):
    """Writes the wheel and returns its name. `config_settings` may name a library and a text `about` for the wheel."""
    of, settings = fields(), config_settings or {}
    library = Path(settings["library"]) if "library" in settings else None
    files = sources(library)
    about, platforms = f"{of['name']}-{of['version']}.dist-info", tag(files)
    files[f"{about}/METADATA"] = metadata().encode()
    files[f"{about}/WHEEL"] = about_wheel(platforms, platforms == "any")
    if LICENSE.is_file():
        files[f"{about}/LICENSE"] = LICENSE.read_bytes()
    if "about" in settings:
        files[f"{about}/BUILD"] = settings["about"].encode()
    name = f"{of['name']}-{of['version']}-py3-none-{platforms}.whl"
    write_wheel(Path(wheel_directory) / name, about, files)
    return name


def build_sdist(sdist_directory, config_settings=None):
    raise NotImplementedError("the package is installed from its folder, and has no archive of sources")
