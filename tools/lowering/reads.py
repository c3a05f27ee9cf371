"""The files that a command of `lower` reads, for those who keep its text: `--reads FILE`."""
from __future__ import annotations

import os
import re
import threading
import time
from typing import TYPE_CHECKING

from .ends import WORK

if TYPE_CHECKING:
    from .options import Options
    from .up_to_date import State

COMPILERS = ("clang-19", "clang++-19")
# How a command ends that reads LLVM's text from its standard input, and no file.
OF_TEXT = ["-x", "ir", "-o", "-", "-"]
SOURCES = (".c", ".cc", ".cpp", ".cxx", ".c++", ".C")


class Reads:
    """The commands of clang on files, each with the list of files that it makes."""

    def __init__(self) -> None:
        self.folder, self.start, self.count = "", 0.0, 0
        self.commands: list[tuple[list[str], str]] = []
        self.of_modules: list[State | None] = []
        self.lock = threading.Lock()

    def begin(self, folder: str) -> None:
        """From now on the commands are noted; their lists stand in a folder."""
        self.folder, self.start = folder, time.time()

    def noting(self, command: list[str]) -> list[str]:
        """A command that also writes the list of the files that it reads."""
        if not self.folder or command[0] not in COMPILERS or "-MF" in command or command[-len(OF_TEXT) :] == OF_TEXT:
            return command
        with self.lock:
            self.count += 1
            listed = os.path.join(self.folder, f"{self.count}.d")
            self.commands.append((command, listed))
        return [command[0], *listing(listed), *command[1:]]

    def note(self, state: State | None) -> None:
        """Notes what a module was made from, in this command or in an earlier one; nothing if that is not known."""
        with self.lock:
            self.of_modules.append(state)

    def take(self, source: str) -> State | None:
        """What the commands on a source have read, which are then forgotten; nothing if it is not known."""
        from .up_to_date import united

        with self.lock:
            own = [given for given in self.commands if source in given[0]]
            self.commands = [given for given in self.commands if source not in given[0]]
        found = [self.state(command, listed) for command, listed in own]
        known = [state for state in found if state is not None]
        return united(known, self.start) if known and len(known) == len(found) else None

    def state(self, command: list[str], listed: str) -> State | None:
        """What one command has read; a source in a folder of this command is one that it made."""
        from .up_to_date import state_of

        read = read_list(listed)
        is_made = bool(read) and os.path.dirname(read[0]) in WORK.made
        return state_of(command, read, self.start, is_made)

    def states(self, options: Options) -> list[State] | None:
        """The states of all that was read; nothing if one is not known."""
        from .up_to_date import State, digest, digest_of, is_young, united

        given = [path for file in options.files if not file.endswith(SOURCES) for path in read_for(file)]
        given += [pool.content for pool in options.pools if pool.content]
        given += [options.compile_commands] if options.compile_commands else []
        if options.cache or any(not digest_of(file) or is_young(file, self.start) for file in given):
            return None
        found = [
            *self.of_modules,
            State({os.path.abspath(file): digest_of(file) for file in given}, [], [], digest(b"")),
        ]
        found += [self.state(command, listed) for command, listed in self.commands]
        known = [state for state in found if state is not None]
        whole = united(known, self.start) if len(known) == len(found) else None
        return [whole] if whole else None


READS = Reads()


def read_for(file: str) -> list[str]:
    """The files that are read for a file that clang does not compile."""
    from .objects import files_of, is_object

    return files_of(file) if is_object(file) else [file]


def listing(path: str) -> list[str]:
    """The words by which clang writes the list of the files that it reads."""
    return ["-MD", "-MF", path, "-MT", "target"]


def read_list(path: str) -> list[str]:
    """The files of a rule of make, the source first, by their whole paths."""
    if not os.path.exists(path):
        return []
    with open(path, encoding="utf-8", errors="surrogateescape") as file:
        text = file.read().partition(":")[2].replace("\\\n", " ")
    names = [re.sub(r"\\(.)", r"\1", name.replace("$$", "$")) for name in re.findall(r"(?:\\.|[^\s\\])+", text)]
    return [os.path.abspath(name) for name in names]
