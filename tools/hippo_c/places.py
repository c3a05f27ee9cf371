"""Which places in C an instruction and a path of calls have."""
import os
from collections.abc import Sequence
from typing import NamedTuple

from lowering.lines import Frame

from .letters import shown
from .program import Function, Program, Site
from .running import TOOLS

OWN = (f"{TOOLS}/runtime/", f"{TOOLS}/hippo.h")
SYSTEM = ("/usr/include/", "/usr/lib/", "/usr/local/include/")


class Place(NamedTuple):
    """A place in the user's C, and its function.

    If clang gives no line for an instruction, the place is the line of the function's head, and `exact` is false."""

    file: str
    line: int
    column: int
    function: str
    exact: bool = True

    def __str__(self) -> str:
        return f"{shown(self.file)}:{self.line}:{self.column}"

    @property
    def short(self) -> str:
        """`FILE:LINE`."""
        return f"{shown(self.file)}:{self.line}"


def is_users(file: str) -> bool:
    """Whether a file is the user's: neither a header of the system nor part of hippo's tools."""
    return not file.startswith(SYSTEM) and not os.path.abspath(file).startswith(OWN)


class Places:
    """The places of a program."""

    def __init__(self, program: Program) -> None:
        self.program = program
        self.users: dict[str, bool] = {}

    def is_users(self, file: str) -> bool:
        """Whether a file is the user's; each file is decided once."""
        if file not in self.users:
            self.users[file] = is_users(file)
        return self.users[file]

    def of(self, site: Site) -> list[Place]:
        """The user's places of an instruction, from the innermost function that was inlined outwards."""
        function = self.program.functions.get(site[0])
        instruction = self.program.instruction(site)
        if function is None or instruction is None or not self.is_users_function(function):
            return []
        named = [frame._replace(function=shown(frame.function or function.name_in_c)) for frame in instruction.frames]
        found = [place_of(frame) for frame in named if frame.line and self.is_users(frame.file)]
        return found or [head_of(function)]

    def of_store(self, site: Site) -> Place | None:
        """The place of a store itself, if that is the user's."""
        instruction, places = self.program.instruction(site), self.of(site)
        if not places or not instruction or not instruction.frames:
            return None
        first = instruction.frames[0]
        return places[0] if (first.file, first.line, first.column) == places[0][:3] else None

    def is_users_function(self, function: Function) -> bool:
        """Whether a function stands in a file of the user's."""
        return function.place is not None and self.is_users(function.place.file)

    def first(self, path: Sequence[Site]) -> Place | None:
        """The innermost place of the user's on a path of sites."""
        return next((place for site in path for place in self.of(site)), None)

    def along(self, path: Sequence[Site]) -> list[Place]:
        """All of the user's places on a path, from the innermost outwards."""
        return [place for site in path for place in self.of(site)]


def place_of(frame: Frame) -> Place:
    """The place of a frame whose function is named."""
    return Place(frame.file, frame.line, frame.column, frame.function or "")


def head_of(function: Function) -> Place:
    """The place of the head of a function that has one."""
    if function.place is None:
        raise ValueError(f"{function.name} has no place")
    return Place(function.place.file, function.place.line, 1, function.name_in_c, exact=False)
