"""Modules of the runtime's files and of the program's own, which are compiled once and kept from one command to the next.

A module is found by the command that compiles it, by LLVM's tools and by the environment. It is taken if clang would read the same files
again (`up_to_date.py`), by the rule that holds for a kept lowered text too. Where the folder of the cache cannot be written, each command
compiles anew. A module of the program is kept for `hippo-c` alone, which also says whether it keeps anything."""
from __future__ import annotations

import contextlib
import glob
import hashlib
import json
import os
import tempfile
import time
from collections.abc import Callable
from typing import Any

from .before_passes import Facts, facts_of
from .bytecode import is_own
from .reads import READS, read_list
from .up_to_date import State, digest_of, identity_of_tools, is_unchanged, state_of

# Variables that name folders of headers, which may be relative to the folder of the command.
VARIABLES = ("CPATH", "C_INCLUDE_PATH", "CPLUS_INCLUDE_PATH")
OFF = "HIPPO_CACHE"
RUNTIME, MODULES = "runtime", "modules"
MOST_KEPT, MOST_BYTES = 512, 1 << 30
OWN_FILES = sorted(glob.glob(os.path.join(os.path.dirname(os.path.abspath(__file__)), "*.py")))


def cache_folder(kind: str) -> str:
    """The folder of the modules of a kind."""
    base = os.environ.get("XDG_CACHE_HOME") or os.path.join(os.path.expanduser("~"), ".cache")
    return os.path.join(base, "hippo-c", kind)


def place_of(kind: str, parts: list[str]) -> str:
    """The path of the entry of a command."""
    whole = "\0".join([*parts, identity_of_tools()])
    return os.path.join(cache_folder(kind), hashlib.sha256(whole.encode("utf-8", "surrogateescape")).hexdigest())


def kept(command: list[str], make: Callable[[], str], listed: str, target: str) -> str:
    """Writes the text of a module of the runtime to a file, and returns it: the text that the cache has, or one that is made and then kept.
    `listed` is the list of the files that clang reads for it, which `make` writes."""
    path = place_of(RUNTIME, [*command, os.getcwd() if any(map(os.environ.get, VARIABLES)) else ""])
    entry = read_entry(path)
    if entry is None:
        start, text = time.time(), make()
        state = state_of(command, read_list(listed), start)
        if state:
            write_entry(path, text, state, {})
    else:
        text, state, _ = entry
    READS.note(state)
    with open(target, "w", encoding="latin-1") as out:
        out.write(text)
    return text


def kept_unit(command: list[str], make: Callable[[], tuple[str, Facts]]) -> tuple[str, Facts]:
    """The module of a file of the program, which ends the command, and its facts: those that the cache has, or new ones that are then kept."""
    if not READS.folder or os.environ.get(OFF) == "off":
        return make()
    path = place_of(MODULES, [*command, os.getcwd(), *map(digest_of, OWN_FILES)])
    if entry := read_entry(path):
        text, state, facts = entry
        READS.note(state)
        return text, facts_of(facts)
    text, found = make()
    made = READS.take(command[-1])
    READS.note(made)
    if made:
        write_entry(path, text, made, found.written())
    return text, found


def read_entry(path: str) -> tuple[str, State, dict[str, Any]] | None:
    """The module of an entry, the state that it was made from, if that is unchanged, and its facts; otherwise nothing."""
    try:
        if not is_own(os.path.dirname(path)):
            return None
        with open(path, encoding="latin-1") as file:
            head, _, text = file.read().partition("\n")
        entry = json.loads(head)
        state = State(*entry["state"])
        if entry["digest"] != digest(head_of(entry["facts"]) + text) or not is_unchanged(state):
            return None
        os.utime(path)
        return text, state, entry["facts"]
    except (OSError, ValueError, KeyError, AttributeError, TypeError):
        return None


def write_entry(path: str, text: str, state: State, facts: dict[str, Any]) -> None:
    """Keeps a module, as a whole file or not at all."""
    folder = os.path.dirname(path)
    head = json.dumps({"digest": digest(head_of(facts) + text), "state": state, "facts": facts})
    with contextlib.suppress(OSError):
        os.makedirs(folder, mode=0o700, exist_ok=True)
        number, made = tempfile.mkstemp(dir=folder, prefix="new.")
        try:
            with open(number, "w", encoding="latin-1") as out:
                out.write(head + "\n" + text)
            os.replace(made, path)
        finally:
            with contextlib.suppress(OSError):
                os.unlink(made)
        forget_old(folder)


def head_of(facts: dict[str, Any]) -> str:
    """The facts as one text."""
    return json.dumps(facts, sort_keys=True)


def forget_old(folder: str) -> None:
    """Removes what has not been used for the longest time."""
    left = MOST_BYTES
    with contextlib.suppress(OSError):
        for number, path in enumerate(sorted(glob.glob(f"{folder}/*"), key=os.path.getmtime, reverse=True)):
            left -= os.path.getsize(path)
            if number >= MOST_KEPT or left < 0:
                os.unlink(path)


def digest(text: str) -> str:
    """What identifies a text."""
    return hashlib.sha256(text.encode("latin-1")).hexdigest()
