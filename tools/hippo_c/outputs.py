"""Refuses words of a command by which it would destroy a file: an output that is an input, another output, or a source."""
from __future__ import annotations

import argparse
import os
import re
import stat
from collections.abc import Iterator

from .config import NAME as PROJECT
from .trouble import Trouble
from .writing import STANDARD_OUTPUT, descriptor_of

# The options that name a file to write, by their names in the parsed words.
OUTPUTS = {
    "out": "-o",
    "diff": "--diff",
    "json": "--json",
    "sarif": "--sarif",
    "html": "--html",
    "write_baseline": "--write-baseline",
    "corpus": "--corpus",
    "depfile": "--depfile",
}
TO_STANDARD_OUTPUT = ("--json", "--sarif", "--html", "--diff")
# The options that name a file to read.
INPUTS = ("input_file", "inputs", "baseline")
SOURCES = re.compile(r"\.(?:c|h|i|ii|s|S|ll|inc|def|cc|cpp|cxx|c\+\+|hh|hpp|hxx|h\+\+|C|H)")
# The files that the folders of --keep and --debug get.
KEPT = re.compile(
    r"(?:before\.)?(?:program|repaired|again|explored|given|native|crashed|after|told|resumed)(?:\.\d+)?\.(?:trace|ll)|edited\.\d+\.[\w+]+|overlay\.yaml"
)
FOLDERS = {
    "keep": KEPT,
    "debug": re.compile(r"program|image|numbers|debug\.gdb|load_image\.c"),
    "pools": re.compile(r"\d+\..+"),
}


def check_outputs(options: argparse.Namespace) -> None:
    """Refuses the outputs of a command that would destroy something; nothing has been read or written before."""
    inputs = {identity(path): path for path in inputs_of(options)}
    outputs: dict[object, str] = {}
    for word, path in outputs_of(options):
        refuse_form(word, path, options.command)
        mark = identity(path)
        if mark in inputs:
            raise Trouble(f"{word} {path}: the command reads this file", f"{word} takes the name of the file to write")
        if mark in outputs and not is_endless(path):
            raise Trouble(f"{word} {path}: {outputs[mark]} writes this file too", "give each of them a file of its own")
        outputs[mark] = word
    for name, files in FOLDERS.items():
        if isinstance(folder := getattr(options, name, None), str) and folder:
            refuse_kept(f"--{name}", folder, files, [*inputs.values(), *(path for _, path in outputs_of(options))])


def outputs_of(options: argparse.Namespace) -> Iterator[tuple[str, str]]:
    """The words that name files to write, with these names."""
    for name, word in OUTPUTS.items():
        if (path := getattr(options, name, None)) is not None:
            yield word, path


def inputs_of(options: argparse.Namespace) -> list[str]:
    """The files that the command reads. A corpus is read too, but is written by its own rule."""
    given = vars(options)
    found = [*options.files, *(given.get("merge") or []), *(given.get("parts") or [])]
    found += [given[name] for name in INPUTS if given.get(name) is not None]
    return found + [pool.split(",", 1)[1] for pool in given.get("pool") or [] if "," in pool]


def identity(path: str) -> object:
    """What two names of one file have in common."""
    number = 1 if path == STANDARD_OUTPUT else descriptor_of(path)
    try:
        found = os.fstat(number) if number is not None else os.stat(path)
    except OSError:
        return os.path.realpath(path)
    return found.st_dev, found.st_ino


def is_endless(path: str) -> bool:
    """Whether a path is a device, such as /dev/null, that several outputs may go to."""
    try:
        return path != STANDARD_OUTPUT and stat.S_ISCHR(os.stat(path).st_mode)
    except OSError:
        return False


def refuse_form(word: str, path: str, command: str) -> None:
    """Refuses the name of an output that is a source's, a folder's, or in no folder."""
    if path == STANDARD_OUTPUT and word in TO_STANDARD_OUTPUT:
        return
    if os.path.basename(path) == PROJECT:
        raise Trouble(
            f"{word} {path}: this is the name of the file of a project", f"{word} takes the name of the file to write"
        )
    ending = os.path.splitext(path)[1]
    if SOURCES.fullmatch(ending) and not (command == "repair" and word == "-o" and ending == ".ll"):
        raise Trouble(
            f"{word} {path}: a name that ends in {ending} is that of a source",
            f"{word} takes the name of the file to write",
        )
    if os.path.isdir(path):
        raise Trouble(f"{word} {path}: Is a directory")
    folder = os.path.dirname(path) or "."
    if descriptor_of(path) is None and not os.path.isdir(folder):
        raise Trouble(f'{word} {path}: {"Not a directory" if os.path.exists(folder) else "No such file or directory"}')


def refuse_kept(word: str, folder: str, files: re.Pattern[str], paths: list[str]) -> None:
    """Refuses a folder for files in which a file of the command has the name of one of them."""
    for path in paths:
        if files.fullmatch(os.path.basename(path)) and identity(os.path.dirname(path) or ".") == identity(folder):
            raise Trouble(
                f"{word} {folder}: hippo-c writes a file {os.path.basename(path)} there, or one like it, and {path} is a file of the command",
                "name another folder",
            )
