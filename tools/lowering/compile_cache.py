"""Modules of C files from one command to the next, for `--cache FOLDER`.

A module is found by the command that compiles it, by what the preprocessor makes of the file, and by this tool's own files. It is taken
if each file that clang read has the same content as then. The preprocessor sees a header that now hides another one; the contents
also have comments and blanks, on which the columns of places depend."""
from __future__ import annotations

import glob
import hashlib
import json
import os
import re
from collections.abc import Callable
from functools import cache

from .before_passes import Facts, facts_of
from .commands import WRITE_FAULT, Failure, output_of
from .outputs import write_whole


@cache
def digest_of(path: str) -> str:
    """What identifies the content of a file; nothing if it cannot be read."""
    try:
        with open(path, "rb") as file:
            return hashlib.sha256(file.read()).hexdigest()
    except OSError:
        return ""


@cache
def digest_of_tool() -> str:
    """What identifies clang and the files of this tool."""
    parts = [
        output_of(["clang-19", "--version"]),
        *map(digest_of, sorted(glob.glob(f"{os.path.dirname(os.path.abspath(__file__))}/*.py"))),
    ]
    return digest("\n".join(parts))


def digest(text: str) -> str:
    """What identifies a text."""
    return hashlib.sha256(text.encode("utf-8", "surrogateescape")).hexdigest()


def kept(folder: str, command: list[str], make: Callable[[], tuple[str, Facts]]) -> tuple[str, Facts]:
    """The module of a command and its facts: those that the folder keeps, or new ones that are then kept."""
    mark = digest("\0".join([digest_of_tool(), os.getcwd(), *command, preprocessed(command)]))
    path = os.path.join(folder, f"{mark}.json")
    if found := read_entry(path):
        return found
    read = {name: digest_of(name) for name in files_read(command)}
    text, facts = make()
    entry = {"read": read, "text": text, **facts.written()}
    try:
        os.makedirs(folder, exist_ok=True)
    except OSError as error:
        raise Failure(f"write fault: {folder}: {error.strerror}", WRITE_FAULT) from None
    write_whole(path, json.dumps({**entry, "digest": digest(json.dumps(entry, sort_keys=True))}).encode())
    return text, facts


def read_entry(path: str) -> tuple[str, Facts] | None:
    """The module that a file keeps, if nothing has changed since; otherwise nothing."""
    try:
        with open(path, encoding="utf-8") as file:
            entry = json.load(file)
        if entry.pop("digest") != digest(json.dumps(entry, sort_keys=True)) or any(
            digest_of(name) != known for name, known in entry["read"].items()
        ):
            return None
        return entry["text"], facts_of(entry)
    except (OSError, ValueError, KeyError, AttributeError, TypeError):
        return None


def preprocessed(command: list[str]) -> str:
    """What the preprocessor makes of the file of a command, with the names of the files that it reads."""
    return output_of([*without_output(command), "-w", "-E"])


def without_output(command: list[str]) -> list[str]:
    """A command without the words that ask for LLVM's text."""
    return [word for word in command if word not in ("-S", "-emit-llvm")]


def files_read(command: list[str]) -> list[str]:
    """The files that clang reads for a command."""
    rule = output_of([*without_output(command), "-w", "-M", "-MT", "target"])
    text = rule.partition(":")[2].replace("\\\n", " ")
    return [re.sub(r"\\(.)", r"\1", name.replace("$$", "$")) for name in re.findall(r"(?:\\.|[^\s\\])+", text)]
