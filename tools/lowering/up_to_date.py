"""What clang read for a command, and whether it would read the same now, without running it.

Clang lists the files that it read. Another file may come into their place: a header that now stands in a folder that clang searches
earlier. So the state of a command has the digests of these files, the names that they include or ask for, the folders in which clang may look for a name, and
which names are files there. Where the files do not say all of this, the state is not known, and nothing is kept."""
from __future__ import annotations

import glob
import hashlib
import os
import re
import shutil
import stat
import subprocess
from functools import cache
from typing import NamedTuple

from .ends import WORK

# A directive or a query with a name; the third group is the start of what is no name, such as a macro.
NAMED = rb'[ \t]*(?:<([^>\n]+)>|"([^"\n]+)"|([^\s<"]))'
DIRECTIVE = re.compile(rb"(?:#|%:|\?\?=)[ \t]*(?:include|include_next|import|embed)\b" + NAMED)
QUERY = re.compile(rb"\b__has_(?:include|include_next|embed)[ \t]*\(" + NAMED)
OF_TIME = re.compile(rb"\b__(?:DATE|TIME|TIMESTAMP)__\b")
# Words of a command that name no file, and words after which another one stands.
PLAIN = re.compile(
    r"-(?:[DUI].+|W[^,]*|w|O\w?|g[\w-]*|std=.+|ansi|pedantic(?:-errors)?|pthread|S|emit-llvm|m[\w=-]+"
    r"|f(?!.*(?:module|plugin|pch|profile|sanitize))[\w-]+|fdebug-compilation-dir=/)"
)
WITH_FOLDER = ("-I", "-isystem", "-iquote", "-idirafter")
WITH_WORD = (*WITH_FOLDER, "-D", "-U", "-include", "-target", "-o", "-x", "-Xclang")
OF_CLANG = ("-disable-O0-optnone", "-disable-llvm-passes", "-fignore-exceptions")
SEARCHED = re.compile(r"^#include .* search starts here:$\n((?:^ .*$\n)*)", re.M)
IGNORED = re.compile(r'^ignoring nonexistent directory "(.*)"$', re.M)
# Variables of the environment that say how a terminal or a shell looks, or where short-lived files go; all others count.
OF_TERMINAL = re.compile(
    r"_|HIPPO_JOBS|TMPDIR|PWD|OLDPWD|SHLVL|TERM\w*|COLUMNS|LINES|COLORTERM|LS_COLORS|NO_COLOR|WINDOWID|TMUX\w*|SSH_\w+|XDG_SESSION\w*"
)
TOOLS_OF_LLVM = ("clang-19", "clang++-19", "llvm-link-19", "opt-19", "llvm-as-19")
INSTALLED = ("/usr/lib/gcc", "/usr/lib/gcc/x86_64-linux-gnu")
# Times of files are those of the last tick of a clock: a file that is this young may have changed while clang ran; seconds.
TICK = 0.1


class State(NamedTuple):
    """What a command read: its files with their digests, the names that these include, the folders, and a digest of what is there."""

    files: dict[str, str]
    names: list[str]
    folders: list[str]
    found: str


def digest(content: bytes) -> str:
    """What identifies bytes."""
    return hashlib.sha256(content).hexdigest()


def content_of(path: str) -> bytes:
    """The bytes of a regular file; an OSError for any other."""
    with open(path, "rb") as file:
        if not stat.S_ISREG(os.fstat(file.fileno()).st_mode):
            raise OSError(f"{path} is no regular file")
        return file.read()


@cache
def digest_of(path: str) -> str:
    """What identifies the content of a file; nothing if it cannot be read."""
    try:
        return digest(content_of(path))
    except OSError:
        return ""


@cache
def identity_of_tools() -> str:
    """What identifies LLVM's tools, their libraries, their settings and the environment."""
    parts = [f"{name}={value}" for name, value in sorted(os.environ.items()) if not OF_TERMINAL.fullmatch(name)]
    paths = [os.path.realpath(path) for name in TOOLS_OF_LLVM if (path := shutil.which(name))]
    folders = sorted({os.path.dirname(path) for path in paths})
    for folder in folders:
        paths += sorted([*glob.glob(f"{folder}/*.cfg"), *glob.glob(f"{os.path.dirname(folder)}/lib/lib*.so*")])
    parts += [f"{path} {marks_of(path)}" for path in paths]
    parts += [" ".join(sorted(os.listdir(folder))) for folder in INSTALLED if os.path.isdir(folder)]
    return digest("\0".join(parts).encode("utf-8", "surrogateescape"))


def marks_of(path: str) -> str:
    """What changes when a file does: its number, its size and its times, of which no program can set the last."""
    try:
        state = os.stat(path)
    except OSError:
        return ""
    return f"{state.st_dev} {state.st_ino} {state.st_size} {state.st_mtime_ns} {state.st_ctime_ns}"


def is_young(path: str, start: float) -> bool:
    """Whether a file has changed since a time, or may have."""
    state = os.stat(path)
    return max(state.st_mtime, state.st_ctime) >= start - TICK


def files_there(folders: list[str], names: list[str]) -> list[str]:
    """The paths of the names in the folders that are files."""
    found = []
    within = {os.path.dirname(name) for name in names}
    for folder in folders:
        present = {part for part in within if os.path.isdir(os.path.join(folder, part))}
        found += [
            path
            for name in names
            if os.path.dirname(name) in present and os.path.isfile(path := os.path.join(folder, name))
        ]
    return found


def is_unchanged(state: State) -> bool:
    """Whether clang would read the same again."""
    if any(digest_of(path) != known for path, known in state.files.items()):
        return False
    return digest("\n".join(files_there(state.folders, state.names)).encode("utf-8", "surrogateescape")) == state.found


def state_of(command: list[str], read: list[str], start: float, made: bool = False) -> State | None:
    """The state of a command that started at a time and read these files, the source first; nothing if it is not known. A source
    that the caller has made, and would make again, is no part of it."""
    given = words_of(command, read[0]) if read else None
    if given is None:
        return None
    names, kept = set(given), read[1:] if made else read
    try:
        for path in read:
            content = content_of(path)
            found = [*DIRECTIVE.findall(content), *QUERY.findall(content)]
            is_known = path not in kept or not is_young(path, start)
            if not is_known or OF_TIME.search(content) or any(computed for _, _, computed in found):
                return None
            names |= {os.fsdecode(angled or quoted) for angled, quoted, _ in found}
        if not all(is_named(path, names) for path in read[1:]):
            return None
        folders = {
            os.getcwd(),
            *folders_of(command, read[0]),
            *(os.path.dirname(os.path.abspath(path)) for path in kept),
        }
        return state_of_files({path: digest_of(path) for path in kept}, names, folders, start)
    except OSError:
        return None


def state_of_files(files: dict[str, str], names: set[str], folders: set[str], start: float) -> State | None:
    """The state of files that a command read which started at a time; nothing if a file of one of the names has come since."""
    there = files_there(sorted(folders), sorted(names))
    if any(is_young(path, start) for path in there):
        return None
    found = digest("\n".join(there).encode("utf-8", "surrogateescape"))
    return State(files, sorted(names), sorted(folders), found)


def united(states: list[State], start: float) -> State | None:
    """One state for those of several commands after a time, which is unchanged only if each of them is; nothing if it is not known."""
    files: dict[str, str] = {}
    for state in states:
        if any(files.setdefault(path, known) != known for path, known in state.files.items()):
            return None
    names = {name for state in states for name in state.names}
    folders = {folder for state in states for folder in state.folders}
    if not all(map(is_unchanged, states)):
        return None
    return state_of_files(files, names, folders, start)


def is_named(path: str, names: set[str]) -> bool:
    """Whether one of the names may be that of a file that clang read."""
    whole = os.path.normpath(path)
    return any(whole == end or whole.endswith(f"/{end}") for end in {os.path.normpath(name) for name in names})


def words_of(command: list[str], source: str) -> list[str] | None:
    """The files that a command on a source includes by its words; nothing if it has a word whose meaning is not known here."""
    forced, words = [], iter(command[1:])
    for word in words:
        if word in WITH_WORD:
            value = next(words, "")
            if word == "-include":
                forced.append(value)
            elif word == "-Xclang" and value not in OF_CLANG:
                return None
        elif not PLAIN.fullmatch(word) and os.path.abspath(word) != source:
            return None
    return forced


def folders_of(command: list[str], source: str) -> list[str]:
    """The folders in which clang searches headers, those that are not there yet too."""
    words, before = [], ""
    for word in command:
        if word not in ("-S", "-emit-llvm", "-o") and before != "-o" and os.path.abspath(word) != source:
            words.append(word)
        before = word
    return asked_folders((*words, "-E", "-v", "-x", "c" if source.endswith(".c") else "c++", os.devnull))


@cache
def asked_folders(command: tuple[str, ...]) -> list[str]:
    """The folders that clang names for a command."""
    process = WORK.start(
        list(command),
        stdin=subprocess.DEVNULL,
        stdout=subprocess.DEVNULL,
        stderr=subprocess.PIPE,
        encoding="utf-8",
        errors="surrogateescape",
    )
    try:
        _, said = process.communicate()
    finally:
        WORK.end(process)
    found = [line for part in SEARCHED.findall(said) for line in part.split("\n")] + IGNORED.findall(said)
    return sorted({os.path.abspath(folder.strip()) for folder in found if folder.strip()})
