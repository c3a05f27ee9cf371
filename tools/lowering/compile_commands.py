"""Arguments of clang by C file, from a `compile_commands.json` as CMake, Meson and Bear write it.

What says how the file is read is taken: its definitions, its folders of headers, its language. What says how it is compiled, such as the level,
warnings, and the output, is left to `tools/lower`."""
from __future__ import annotations

import json
import os
import re
import shlex
from collections.abc import Iterator
from functools import cache
from typing import Any

from .commands import NO_FILE, READ_FAULT, USAGE, Failure

# Options that are taken with their values; the values of PATHS are paths from the folder of the command.
WORDS = ("-D", "-U", "-std", "--std", "-x", "-ansi", "-pthread", "-undef", "-nostdinc")
PATHS = ("-I", "-isystem", "-iquote", "-idirafter", "-include", "-imacros")
# Of these the values are files, which clang searches in the folders of headers if they are not there.
OF_FILES = ("-include", "-imacros")
SEPARATE = ("-D", "-U", "-x")
# Of the options that begin with -f and -m only these change how C is read.
READING = (
    "-fshort-enums",
    "-funsigned-char",
    "-fsigned-char",
    "-fms-extensions",
    "-fgnu89-inline",
    "-ffreestanding",
    "-fno-builtin",
)
BLANKS = re.compile(r"[ \t\r\n]*")


@cache
def commands_of(path: str) -> dict[str, list[str]]:
    """The arguments for each C file of a list of commands, by its real path, in the order of the list."""
    try:
        with open(path, encoding="utf-8") as file:
            text = file.read()
    except FileNotFoundError:
        raise Failure(f"no file: {path}", NO_FILE) from None
    except OSError as error:
        raise Failure(f"read fault: {path}: {error.strerror}", READ_FAULT) from None
    except UnicodeDecodeError:
        raise Failure(f"{path}: not UTF-8 text", USAGE) from None
    found: dict[str, list[str]] = {}
    for line, entry in entries_of(path, text):
        try:
            folder = os.path.join(os.path.dirname(os.path.abspath(path)), entry.get("directory", "."))
            words = entry["arguments"] if "arguments" in entry else shlex.split(entry["command"])
            found.setdefault(os.path.realpath(os.path.join(folder, entry["file"])), taken(words[1:], folder))
        except (ValueError, KeyError, TypeError, AttributeError, IndexError):
            raise Failure(f"{path}:{line}: no command with a directory, a file, and its arguments", USAGE) from None
    return found


def entries_of(path: str, text: str) -> Iterator[tuple[int, Any]]:
    """The elements of the list that a text of JSON is, each with the line where it begins."""
    decoder, place = json.JSONDecoder(), skipped(text, 0)
    if text[place : place + 1] != "[":
        raise Failure(f"{path}:{line_at(text, place)}: not a list of commands", USAGE)
    place = skipped(text, place + 1)
    while text[place : place + 1] != "]":
        try:
            entry, end = decoder.raw_decode(text, place)
        except ValueError as error:
            line = getattr(error, "lineno", line_at(text, place))
            raise Failure(f"{path}:{line}: {getattr(error, 'msg', error)}", USAGE) from None
        yield line_at(text, place), entry
        place = skipped(text, end)
        if text[place : place + 1] == ",":
            place = skipped(text, place + 1)
        elif text[place : place + 1] != "]":
            raise Failure(f"{path}:{line_at(text, place)}: neither a comma nor the end of the list", USAGE)


def skipped(text: str, place: int) -> int:
    """The place of what comes after blanks."""
    found = BLANKS.match(text, place)
    return found.end() if found else place


def line_at(text: str, place: int) -> int:
    """The line of a place."""
    return text.count("\n", 0, place) + 1


def taken(words: list[str], folder: str) -> list[str]:
    """The arguments that say how a file is read; paths are absolute."""
    found, rest = [], iter(words)
    for word in rest:
        path = next((option for option in PATHS if word.startswith(option)), "")
        if path:
            value = word[len(path) :] or next(rest, "")
            whole = os.path.normpath(os.path.join(folder, value))
            is_searched = path in OF_FILES and not os.path.isfile(whole)
            found += [path, value if is_searched else whole]
        elif word in SEPARATE:
            found += [word, next(rest, "")]
        elif word.startswith(("-f", "-m")):
            found += [word] if word in READING else []
        elif word.startswith(WORDS):
            found.append(word)
    return found


def own_arguments(file: str, path: str, shares: bool = False) -> list[str]:
    """The arguments for one C file, none if there is no list of commands. A file that the list does not have is refused, or gets the
    arguments that all files of the list share."""
    if not path:
        return []
    known = commands_of(path)
    arguments = known.get(os.path.realpath(file))
    if arguments is None and not shares:
        raise Failure(f"{file} is not in {path}", USAGE)
    return shared(path) if arguments is None else arguments


@cache
def shared(path: str) -> list[str]:
    """The arguments that all files of a list share, in the order of the first one."""
    lists = [pairs_of(words) for words in commands_of(path).values()]
    common = [pair for pair in lists[0] if all(pair in others for others in lists)] if lists else []
    return [word for pair in common for word in pair]


def pairs_of(words: list[str]) -> list[tuple[str, ...]]:
    """Arguments, each with the value that is a word of its own."""
    found: list[tuple[str, ...]] = []
    rest = iter(words)
    for word in rest:
        found.append((word, next(rest, "")) if word in (*PATHS, *SEPARATE) else (word,))
    return found
