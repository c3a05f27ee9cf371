"""The folder of a release: an installation, with the pages and the examples."""

from __future__ import annotations

import hashlib
import os
import shutil
import subprocess
import sys
from pathlib import Path

from .origin import TOP, Origin, needed_library
from .refusal import Refused

DOCUMENTS = "share/doc/hippo"
SUMS = f"{DOCUMENTS}/SHA256SUMS"
PAGES = ("README.md", "CHANGELOG.md", "VERSION")
FOLDERS = ("docs", "examples")
START = """\
hippo {version} for Linux on x86-64, with the GNU C library {library} or later.

bin/hippo is the program that was proved from commit {commit}
by {toolchain}.

  bin/hippo --help                      the commands
  bin/hippo-c check FILE.c --input 1 2  durability bugs of a C program; needs Python 3.10, clang-19 and llvm-19
  bin/hippo-c install /usr/local        copies this folder's files below another one

Everything runs from this folder, wherever it is. {documents} has the pages and the examples, and the digest
of each file in SHA256SUMS: sha256sum --check {documents}/SHA256SUMS
"""


def digest_of(file: Path) -> str:
    """The digest of a file's contents."""
    return hashlib.sha256(file.read_bytes()).hexdigest()


def files_of(folder: Path) -> list[Path]:
    """Each file below a folder, as a path below it, in an order that depends on names alone."""
    return sorted(path.relative_to(folder) for path in folder.rglob("*") if path.is_file())


def tracked(top: Path, folder: str) -> list[str]:
    """The files of the commit below a folder: what a build or a test left beside them is no part of a release."""
    ran = subprocess.run(["git", "-C", str(top), "ls-files", "-z", folder], capture_output=True, text=True, check=True)
    return [name for name in ran.stdout.split("\0") if name]


def copy_documents(top: Path, target: Path) -> None:
    """Copies the pages and the examples."""
    for name in [*PAGES, *(name for folder in FOLDERS for name in tracked(top, folder))]:
        (target / name).parent.mkdir(parents=True, exist_ok=True)
        shutil.copyfile(top / name, target / name)
        (target / name).chmod((top / name).stat().st_mode)


def settle(folder: Path, time: int) -> None:
    """Gives each file and folder a mode and a time that depend on nothing but the release."""
    for path in [folder, *folder.rglob("*")]:
        runs = path.is_dir() or path.stat().st_mode & 0o100
        path.chmod(0o755 if runs else 0o644)
        os.utime(path, (time, time))


VERSION_TEXT = """\
hippo {version}
commit: {commit}
toolchain: {toolchain}
proved: yes
"""


def make_tree(origin: Origin, folder: Path) -> None:
    """Makes the folder of the release."""
    command = [
        sys.executable,
        "-B",
        str(TOP / "tools" / "hippo-c"),
        "install",
        str(folder),
        "--program",
        str(origin.program),
    ]
    ran = subprocess.run(command, capture_output=True, text=True, check=False)
    if ran.returncode:
        raise Refused(f"hippo-c install fails: {ran.stderr.strip()}")
    about = VERSION_TEXT.format(version=origin.version, commit=origin.commit, toolchain=origin.toolchain)
    (folder / "lib/hippo/about/version").write_text(about, encoding="utf-8")
    documents = folder / DOCUMENTS
    shutil.rmtree(documents)  # a release has what the commit has, and no other files
    copy_documents(TOP, documents)
    start = START.format(
        version=origin.version,
        library=needed_library(origin.program),
        commit=origin.commit,
        toolchain=origin.toolchain,
        documents=DOCUMENTS,
    )
    (folder / "README").write_text(start, encoding="utf-8")
    names = [name for name in files_of(folder) if str(name) != SUMS]
    (folder / SUMS).write_text("".join(f"{digest_of(folder / name)}  {name}\n" for name in names), encoding="utf-8")
    settle(folder, origin.time)
