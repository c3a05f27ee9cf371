"""The statements of C files by their letters alone: the text around a place, without comments and without the layout of its lines."""
import re
from bisect import bisect_right
from collections.abc import Iterator
from functools import cache
from typing import NamedTuple

from .places import Place
from .sources import LINE_END, bytes_of

TOKEN = re.compile(
    r"""
    (?P<left_out> \s+ | //(?:[^\\\n]|\\.)* | /\*.*?\*/ | ^[ \t]*\#(?:[^\\\n]|\\.)* )
    | "(?:[^"\\\n]|\\.)*" | '(?:[^'\\\n]|\\.)*' | \w+ | -> | \+\+ | -- | && | \|\| | <<=? | >>=? | [-+*/%&|^=!<>]= | .""",
    re.S | re.M | re.X,
)


class Statement(NamedTuple):
    """A statement: where it begins, in bytes, and its words with a blank between them."""

    begin: int
    text: str


def statement_at(place: Place) -> str:
    """The statement at a place; an empty text if the lines of its file are not known."""
    starts, found = statements_of(place.file)
    if not found or not 0 < place.line <= len(starts):
        return ""
    offset = starts[place.line - 1] + max(place.column, 1) - 1
    number = bisect_right(found, offset, key=lambda statement: statement.begin) - 1
    return found[max(number, 0)].text


@cache
def statements_of(file: str) -> tuple[list[int], list[Statement]]:
    """Where the lines of a file begin, and its statements."""
    source = bytes_of(file).decode("latin-1")
    return [0, *(found.end() for found in LINE_END.finditer(source))], list(split(source))


def split(source: str) -> Iterator[Statement]:
    """The statements of a source: what is between semicolons outside of parentheses, and between braces."""
    begin, depth = 0, 0
    words: list[str] = []
    outer: list[int] = []
    for found in TOKEN.finditer(source):
        word = found[0]
        if found["left_out"] is not None:
            continue
        ends = word in "{}" or word == ";" and depth == 0
        if word == "{":
            outer.append(depth)
            depth = 0
        elif word == "}":
            depth = outer.pop() if outer else 0
        elif word in "()":
            depth = max(depth + (1 if word == "(" else -1), 0)
        if not ends:
            begin = begin if words else found.start()
            words.append(word)
        elif words:
            yield Statement(begin, " ".join(words))
            words = []
    if words:
        yield Statement(begin, " ".join(words))
