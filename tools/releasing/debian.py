"""The package for Debian, made from the folder of a release by Debian's own tools."""

from __future__ import annotations

import gzip
import hashlib
import os
import re
import shutil
import subprocess
import time
from pathlib import Path

from .origin import Origin, needed_library
from .refusal import Refused
from .tree import DOCUMENTS, SUMS, files_of, settle

CONTROL = """\
Package: hippo
Version: {version}
Architecture: amd64
Maintainer: {maintainer}
Installed-Size: {size}
Depends: libc6 (>= {library}), python3 (>= 3.10)
Recommends: clang-19, llvm-19
Section: devel
Priority: optional
Description: finds and repairs durability bugs of persistent memory
 Programs that keep their data in persistent memory lose a store at a power
 cut unless its cache line is flushed and a fence follows in time. hippo
 replays a run, reports each store that is not durable where it must be, and
 writes the repaired program. The program is proved to do what it says;
 hippo-c, which shows its reports by lines of C, is tested.
"""
COPYRIGHT = """\
hippo, copyright 2026 by its authors.

The owner of hippo has not chosen a licence yet. The program contains libraries of the toolchain that built it; the list of contents that a
release comes with names them.
"""
# The package has the very bytes that were proved and built.
OVERRIDES = "hippo: unstripped-binary-or-object [usr/lib/hippo/hippo]\n"
CHANGES = """\
hippo ({version}) unstable; urgency=medium

  * Release {version}; CHANGELOG.md has the changes.

 -- {maintainer}  {date}
"""


def maintainer() -> str:
    """Who answers for the package, as Debian's tools take it: DEBFULLNAME and DEBEMAIL."""
    name, address = os.environ.get("DEBFULLNAME", ""), os.environ.get("DEBEMAIL", "")
    if not name or not re.fullmatch(r"[^@\s<>]+@[^@\s<>]+", address):
        raise Refused("a package names who answers for it: set DEBFULLNAME and DEBEMAIL")
    return f"{name} <{address}>"


def pack(target: Path, text: str) -> None:
    """Writes a text as Debian wants its changelogs: compressed, and without the time and name of the file."""
    with target.open("wb") as raw, gzip.GzipFile("", "wb", 9, raw, mtime=0) as packed:
        packed.write(text.encode())


def move_tree(folder: Path, root: Path) -> None:
    """Copies the folder of the release below usr/, and leaves out what stands elsewhere in a package."""
    shutil.copytree(folder, root / "usr")
    for name in ("README", SUMS):
        (root / "usr" / name).unlink()
    for page in sorted((root / "usr/share/man/man1").glob("*.1")):
        pack(page.with_name(page.name + ".gz"), page.read_text(encoding="utf-8"))
        page.unlink()


def write_documents(origin: Origin, root: Path, who: str) -> None:
    """Writes the copyright file and the changelog."""
    documents = root / "usr" / DOCUMENTS
    (documents / "copyright").write_text(COPYRIGHT, encoding="utf-8")
    overrides = root / "usr/share/lintian/overrides/hippo"
    overrides.parent.mkdir(parents=True)
    overrides.write_text(OVERRIDES, encoding="utf-8")
    date = time.strftime("%a, %d %b %Y %H:%M:%S +0000", time.gmtime(origin.time))
    pack(documents / "changelog.gz", CHANGES.format(version=origin.version, maintainer=who, date=date))


def write_control(origin: Origin, root: Path, who: str) -> None:
    """Writes the package's control file and the digests of its files."""
    control, names = root / "DEBIAN", files_of(root)
    control.mkdir()
    size = sum((root / name).stat().st_size for name in names) // 1024 + 1
    text = CONTROL.format(version=origin.version, maintainer=who, size=size, library=needed_library(origin.program))
    (control / "control").write_text(text, encoding="utf-8")
    sums = [f"{md5_of(root / name)}  {name}\n" for name in names]
    (control / "md5sums").write_text("".join(sums), encoding="utf-8")


def md5_of(file: Path) -> str:
    """The digest that Debian's packages list, which guards against damage and not against forgery."""
    return hashlib.md5(file.read_bytes(), usedforsecurity=False).hexdigest()


def write_package(origin: Origin, folder: Path, room: Path, target: Path) -> None:
    """Writes the package."""
    who, root = maintainer(), room / "package"
    root.mkdir()
    move_tree(folder, root)
    write_documents(origin, root, who)
    write_control(origin, root, who)
    settle(root, origin.time)
    environment = {**os.environ, "SOURCE_DATE_EPOCH": str(origin.time)}
    command = ["dpkg-deb", "--root-owner-group", "--build", str(root), str(target)]
    try:
        ran = subprocess.run(command, capture_output=True, text=True, check=False, env=environment)
    except OSError as error:
        raise Refused(f"dpkg-deb: {error.strerror}") from None
    if ran.returncode:
        raise Refused(f"dpkg-deb fails: {ran.stderr.strip()}")
