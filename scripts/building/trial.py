"""Tries artefacts where there is neither the Rattle kit nor this repository: in a root of its own, without a network.

With debootstrap installed the root is a new minimal Debian, with Python, pip and a C compiler from its archive; it is kept
in out/root. Otherwise it is made of the folders of the system that have them. Cargo is the one of the host, either way.
"""
import os
import shutil
import sys
import time
from pathlib import Path

from .kit import ROOT, Failure, done, run

DEBIAN = ("python3", "python3-pip", "gcc", "g++", "libc6-dev", "pkg-config", "ca-certificates")
SYSTEM = ("usr", "lib", "lib64", "bin", "sbin", "etc/alternatives", "etc/ssl")
# what is bound into either root: the host's cargo, and its Python if it is not the system's
TOOLS = [Path(os.environ.get("CARGO_HOME", Path.home() / ".cargo")), Path(os.environ.get("RUSTUP_HOME", Path.home() / ".rustup"))]
# Mounts, enters the root and runs the commands; the mounts end with the namespace.
ENTER = """set -e
mount -t tmpfs none "$1/tmp"
mount -t proc none "$1/proc"
for device in null zero urandom; do touch "$1/dev/$device"; mount --bind "/dev/$device" "$1/dev/$device"; done
while read -r from to; do mkdir -p "$1$to"; mount --rbind -o ro "$from" "$1$to"; done <"$2"
mkdir -p "$1/tmp/handed"
mount --bind "$3" "$1/tmp/handed"
exec chroot "$1" /usr/bin/env -i PATH="$4" HOME=/tmp RUSTUP_HOME="$5" CARGO_HOME=/tmp/cargo LC_ALL=C.UTF-8 \\
    /bin/bash -e -c "$6"
"""


def debian_root():
    """A minimal Debian, made once."""
    root = ROOT / "out/root"
    if not (root / "made").exists():
        shutil.rmtree(root, ignore_errors=True)
        done(["debootstrap", "--variant=minbase", f"--include={','.join(DEBIAN)}", "stable", root])
        (root / "made").touch()
    return root, "a new Debian without the kit"


def system_root(folder):
    """An empty root, into which the folders of the system are bound: without /opt, /home and the repository."""
    root = folder / "root"
    for name in SYSTEM:
        place = Path("/") / name
        if place.is_symlink():
            (root / name).parent.mkdir(parents=True, exist_ok=True)
            (root / name).symlink_to(os.readlink(place))
    return root, "the system's folders without the kit"


def bound(root):
    """What is bound into a root, and where."""
    found = [] if (root / "made").exists() else [Path("/") / it for it in SYSTEM]
    if not found:
        return [it for it in TOOLS if it.is_dir()]
    own = Path(sys.base_prefix)
    return [it for it in (*found, *TOOLS, own) if it.is_dir() and not it.is_symlink()]


class Trial:
    """A root in which commands are run over a folder of files."""

    def __init__(self, folder):
        if os.geteuid() != 0:
            raise Failure("a trial in a root of its own needs the rights of root: run as root, or leave it out with --untried")
        self.folder = folder
        self.root, self.what = debian_root() if shutil.which("debootstrap") else system_root(folder)
        for name in ("tmp", "proc", "dev"):
            (self.root / name).mkdir(parents=True, exist_ok=True)
        self.mounts = folder / "mounts"
        self.mounts.write_text("".join(f"{it} {it}\n" for it in bound(self.root)))

    def run(self, handed, commands):
        """Runs commands in the root, where `handed` is /tmp/handed, and returns what they print and the seconds they took."""
        path = f"/usr/bin:/bin:/usr/sbin:/sbin:{TOOLS[0]}/bin:{Path(sys.base_prefix) / 'bin'}"
        words = ["unshare", "--mount", "--net", "--propagation", "private", "bash", "-c", ENTER, "enter"]
        start = time.time()
        ran = run([*words, self.root, self.mounts, handed, path, TOOLS[1], commands])
        if ran.returncode:
            raise Failure(f"in {self.what}:\n{commands}\n{ran.stdout[-3000:]}")
        return ran.stdout, time.time() - start
