"""Texts that clang and tools/lower made, from one command to the next.

A text is taken if the words of the command, these tools, LLVM's tools, the environment and the folder are the same, and if clang would read the
same files again (`lowering/up_to_date.py`). What hippo says of a text is never kept: each command asks hippo again."""
from __future__ import annotations

import contextlib
import glob
import hashlib
import json
import os
import tempfile
import time
from functools import cache
from typing import NamedTuple

from lowering import bytecode
from lowering.reads import listing, read_list
from lowering.up_to_date import State, digest, digest_of, identity_of_tools, is_unchanged, state_of

from . import running
from .trouble import Trouble
from .writing import whole_file

TOOLS = bytecode.TOOLS
MOST_BYTES, MOST_FILES = 1 << 30, 256
# What a command gets that keeps nothing.
OFF = "HIPPO_CACHE"


class Kept(NamedTuple):
    """The texts of a command, and what it said."""

    texts: list[bytes]
    notes: str


@cache
def identity() -> str:
    """What identifies these tools, LLVM's tools and the folder that names of files are relative to."""
    files = [
        *sorted(glob.glob(f"{TOOLS}/runtime/*")),
        f"{TOOLS}/hippo.h",
        f"{TOOLS}/lower",
        f"{TOOLS}/external_functions.c",
    ]
    parts = [bytecode.digest_of_sources(), identity_of_tools(), os.getcwd(), TOOLS, *map(digest_of, files)]
    return digest("\0".join(parts).encode("utf-8", "surrogateescape"))


def folder() -> str:
    """The folder of the texts; nothing if none are kept."""
    base = bytecode.cache_folder()
    return "" if os.environ.get(OFF) == "off" or not base else os.path.join(base, "texts")


def path_of(words: list[str]) -> str:
    """The file of a command's texts; nothing if none are kept."""
    place = folder()
    name = (
        hashlib.sha256("\0".join([identity(), *words]).encode("utf-8", "surrogateescape")).hexdigest() if place else ""
    )
    return os.path.join(place, name) if place else ""


def find(path: str) -> Kept | None:
    """The texts that a file has, if they are whole and what they were made from has not changed; otherwise nothing."""
    try:
        if not path or not bytecode.is_own(os.path.dirname(path)):
            return None
        with open(path, "rb") as file:
            head = json.loads(file.readline())
            texts = [file.read(size) for size in head["sizes"]]
        states = [State(*state) for state in head["states"]]
        if digest(b"".join(texts)) != head["digest"] or not all(map(is_unchanged, states)):
            return None
        os.utime(path)
        return Kept(texts, head["notes"])
    except (OSError, ValueError, KeyError, TypeError):
        return None


def keep(path: str, states: list[State] | None, kept: Kept) -> None:
    """Keeps texts for the next command; a file appears when it is complete. Without states, or where nothing can be written, it keeps none."""
    if not path or states is None:
        return
    head = {
        "states": states,
        "sizes": [len(text) for text in kept.texts],
        "digest": digest(b"".join(kept.texts)),
        "notes": kept.notes,
    }
    with contextlib.suppress(OSError, Trouble):
        os.makedirs(os.path.dirname(path), mode=0o700, exist_ok=True)
        with whole_file(path, mode=0o600) as file:
            file.write(json.dumps(head).encode("ascii") + b"\n" + b"".join(kept.texts))
        forget_old(os.path.dirname(path))


def output_of(command: list[str]) -> bytes:
    """What clang writes for a file, or wrote when it read the same; nothing is kept of a command that fails."""
    place = path_of(command)
    if found := find(place):
        return found.texts[0]
    with tempfile.TemporaryDirectory(prefix="hippo-c-") as room:
        listed, start = f"{room}/read.d", time.time()
        ran = running.tool([command[0], *listing(listed), *command[1:]])
        if place and ran.returncode == 0:
            state = state_of(command, read_list(listed), start)
            keep(place, state and [state], Kept([ran.stdout], ""))
    return ran.stdout


def forget_old(place: str) -> None:
    """Removes the texts that have not been used for the longest time."""
    left = MOST_BYTES
    with contextlib.suppress(OSError):
        paths = sorted(glob.glob(f"{place}/*"), key=os.path.getmtime, reverse=True)
        for number, path in enumerate(paths):
            left -= os.path.getsize(path)
            if left < 0 or number >= MOST_FILES:
                os.unlink(path)
