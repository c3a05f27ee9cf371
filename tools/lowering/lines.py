"""The map from instructions of a lowered text to C: a comment after each instruction, written and read here.

`; ring.c:25:3` is file, line and column. Where clang inlined a call, the place inside the callee comes first, with the
callee's name, and then the place of the call: `; pair.h:7:8 in set < ring.c:25:3`. A function's head has the place of
the function and its name in C: `; ring.c:20:0 in put`. What tools/lower added has `; added`. Line 0 says that clang
merged instructions of several lines. A name is in quotes, spelled as in JSON, if it has other characters than the
plain ones, as names of C++ have: `; map.h:7:8 in "Map<int, 4>::put" < ring.cpp:25:3`.
"""
import json
import re
from typing import NamedTuple

from .names import demangled
from .places import Places

ADDED = "added"
# What stands after the head of an added function that traps since another one has no form: the kind of the refusal, and the reason.
REFUSED = re.compile(rf"{ADDED}: (?P<kind>\w+): (?P<reason>.*)")
# clang inlines few calls; a file may have chains of thousands, and each instruction writes its chain.
MOST_FRAMES = 64
PLAIN_FUNCTION = re.compile(r"[\w$.:~]+", re.ASCII)
PLAIN_NAME = re.compile(r"[-\w./+@~=,]+", re.ASCII)
FRAME = re.compile(r'("(?:[^"\\]|\\.)*"|[-\w./+@~=,]+):(\d+):(\d+)(?: in ("(?:[^"\\]|\\.)*"|[^\s"]+))?', re.ASCII)


class Frame(NamedTuple):
    """A place in C; the function is named if it is not the one that has the instruction in the lowered text."""

    file: str
    line: int
    column: int
    function: str | None = None


class LineTables:
    """The places of instructions, by clang's line tables."""

    def __init__(self, places: Places) -> None:
        self.places = places
        self.comments: dict[str, str] = {}
        self.qualified = demangled(places.texts("linkageName"))

    def comment(self, metadata: dict[str, str]) -> str:
        """The comment after an instruction that has this metadata, or an empty text if it has no place."""
        number = metadata.get("dbg")
        if number is None:
            return ""
        if number not in self.comments:
            self.comments[number] = as_comment(show(self.frames(number)))
        return self.comments[number]

    def head_comment(self, metadata: dict[str, str]) -> str:
        """The comment after the head of a function."""
        number = metadata.get("dbg")
        name = self.function_name(number)
        if not name:
            return ""
        return as_comment(show([Frame(self.file(number), self.places.number(number, "line") or 0, 0, name)]))

    def frames(self, number: str) -> list[Frame]:
        """The places of an instruction, from the innermost inlined function outwards; of a long chain the first ones and the last one."""
        found: list[Frame] = []
        last = self.places.outermost_call(number)
        while number != last and len(found) < MOST_FRAMES - 1:
            found.append(self.frame(number, self.function(self.places.field(number, "scope"))))
            number = self.places.field(number, "inlinedAt") or last
        return [*found, self.frame(last)]

    def frame(self, number: str, function: str | None = None) -> Frame:
        """The place of one function."""
        line, column = (self.places.number(number, name) or 0 for name in ("line", "column"))
        return Frame(self.file(self.places.field(number, "scope")), line, column, function)

    def file(self, scope: str | None) -> str:
        """The file of a scope, or of the next scope around it that has one."""
        while scope:
            named = self.places.field(scope, "file")
            if named:
                return self.places.file_name(named)
            scope = self.places.field(scope, "scope")
        return ""

    def function(self, scope: str | None) -> str:
        """The name of the function around a scope."""
        while scope:
            if name := self.function_name(scope):
                return name
            scope = self.places.field(scope, "scope")
        return "?"

    def function_name(self, number: str | None) -> str | None:
        """The name of a function as the source has it; in C++ with its classes and namespaces."""
        return self.qualified.get(self.places.text(number, "linkageName") or "") or self.places.text(number, "name")


def as_comment(shown: str) -> str:
    """A comment after a line; none for an empty text."""
    return f" ; {shown}" if shown else ""


def show(frames: list[Frame]) -> str:
    """The text of the frames that have a file."""
    return " < ".join(show_frame(frame) for frame in frames if frame.file)


def show_frame(frame: Frame) -> str:
    """The text of one frame."""
    file = frame.file if PLAIN_NAME.fullmatch(frame.file) else json.dumps(frame.file)
    function = frame.function or ""
    if not PLAIN_FUNCTION.fullmatch(function):
        function = function and json.dumps(function)
    return f"{file}:{frame.line}:{frame.column}" + (f" in {function}" if function else "")


def read(comment: str) -> list[Frame]:
    """The frames that `show` wrote; none if the comment is another one."""
    frames, place = [], 0
    while found := FRAME.match(comment, place):
        file = json.loads(found[1]) if found[1].startswith('"') else found[1]
        function = json.loads(found[4]) if found[4] and found[4].startswith('"') else found[4]
        frames.append(Frame(file, int(found[2]), int(found[3]), function))
        place = found.end()
        if comment[place : place + 3] != " < ":
            break
        place += 3
    return frames if place == len(comment) else []


def with_comment(line: str, comment: str) -> str:
    """A line of a lowered text with its comment; labels have none."""
    return line if not line.startswith("  ") else line + comment


def marked_added(text: str, reason: str = "") -> str:
    """The text of a function that was added to the program, with a mark on each line except labels and the last; the head has a reason
    too, if there is one."""
    head, *rest = text.split("\n")
    mark = as_comment(f"{ADDED}: {reason}" if reason else ADDED)
    return "\n".join([head + mark, *(line + as_comment(ADDED) if line.startswith("  ") else line for line in rest)])
