#!/usr/bin/env python3
"""Refuses tracked files that do not belong into the repository: files that a tool makes, hosts of the network, such as those of package
registries and mirrors, and paths that exist on one machine. Each fault is a line of standard output, and the exit code is 1."""

from __future__ import annotations

import re
import subprocess
import sys
from pathlib import Path
from typing import Iterator

TOP = Path(__file__).resolve().parent.parent
# Folders and endings of files that a compiler, an interpreter, an editor or a merge makes.
MADE_FOLDERS = {"out", "__pycache__", ".mypy_cache", ".pytest_cache", "node_modules"}
MADE_ENDINGS = (
    ".pyc",
    ".pyo",
    ".o",
    ".a",
    ".so",
    ".bc",
    ".gch",
    ".gcda",
    ".gcno",
    ".part",
    ".partial",
    ".orig",
    ".rej",
    ".swp",
    "~",
)
# Names that a format defines; no tool fetches them.
NAMED_HOSTS = {"json.schemastore.org"}
# Modules of the language's library: `Rattle.std.specs.Io`.
LIBRARY = "Rattle."
# How a picture of the form PNG begins.
PICTURE = b"\x89PNG\r\n\x1a\n"
HOST = re.compile(
    rb"(?:\b(?:https?|ftp|git|ssh)://(?:[^\s/@'\"]*@)?([\w.-]+))|"
    rb"\b((?:[a-z0-9-]+\.)+(?:com|org|net|io|dev|edu|cloud))\b(?![\w(])",
    re.I,
)
PATH = re.compile(rb"(?<![\w.$}/>)-])/(?:home|root|work|workspace|Users|opt|mnt|media|srv|scratch|private)/[\w.-]")


def tracked(top: Path) -> list[str]:
    """The paths that git tracks, from the top folder."""
    ran = subprocess.run(["git", "-C", str(top), "ls-files", "-z"], capture_output=True, check=True)
    return [name for name in ran.stdout.decode("utf-8", "surrogateescape").split("\0") if name]


def is_made(name: str) -> bool:
    """Whether a path is that of a file which a tool makes."""
    *folders, last = name.split("/")
    return not MADE_FOLDERS.isdisjoint(folders) or last.endswith(MADE_ENDINGS)


def is_picture(name: str, content: bytes) -> bool:
    """Whether a file is a picture of a page."""
    return name.startswith("docs/") and name.endswith(".png") and content.startswith(PICTURE)


def faults_of_text(text: bytes) -> Iterator[str]:
    """What a text must not have, with the number of the line."""
    if b"\0" in text:
        yield "1: bytes that are not a text"
        return
    for number, line in enumerate(text.split(b"\n"), 1):
        for found in HOST.finditer(line):
            host = (found[1] or found[2]).decode()
            if host.lower() not in NAMED_HOSTS and not host.startswith(LIBRARY):
                yield f"{number}: the host {host}"
        for found in PATH.finditer(line):
            yield f"{number}: the path of one machine, {found[0].decode()}.."


def faults(top: Path) -> Iterator[str]:
    """The faults of all tracked files."""
    for name in tracked(top):
        path = top / name
        if is_made(name):
            yield f"{name}: a tool makes this file, so git must not track it"
        elif path.is_file() and not is_picture(name, content := path.read_bytes()):
            yield from (f"{name}:{fault}" for fault in faults_of_text(content))


def main() -> int:
    """Prints the faults; returns 1 if there are any."""
    if not (TOP / ".git").exists():
        print("repository: skipped, this folder is not a clone")
        return 0
    found = list(faults(TOP))
    print("".join(f"{fault}\n" for fault in found) + f"repository: {len(found)} faults")
    return 1 if found else 0


if __name__ == "__main__":
    sys.exit(main())
