"""Comments of a source that name a statement's stores volatile: `pool.puts++; // hippo: volatile, recounted at start`.

A comment belongs to the statement that it stands in, or to the one that ends before it on its line with nothing but blanks between."""
from __future__ import annotations

import re
from collections.abc import Iterator
from functools import cache
from typing import NamedTuple

from .sources import LINE_END
from .statements import TOKEN

OURS = re.compile(r"(?://|/\*)\s*hippo:\s*(?P<text>.*?)\s*(?:\*/)?", re.S)
FORM = re.compile(r"volatile\s*,\s*(?P<reason>\S.*)", re.S)
# What follows the `}` of an initial value, and not that of a block.
AFTER_VALUE = (";", ",", ")", ".", "]")


class Mark(NamedTuple):
    """A comment: its line and column, what is wrong with it if it is no suppression, its reason, and the bytes of its statement."""

    line: int
    column: int
    wrong: str
    reason: str = ""
    begin: int = 0
    end: int = 0

    def covers(self, offset: int) -> bool:
        """Whether a place of the file is in the statement."""
        return self.begin <= offset < self.end


class Brace:
    """What is open since a brace: where its current statement begins, and the open parentheses; whether it has ended a statement."""

    def __init__(self) -> None:
        self.begin, self.depth, self.has_statements = -1, 0, False


class Scanner:
    """Finds the comments of a source, and the statements that they belong to."""

    def __init__(self, source: str) -> None:
        self.source = source
        self.open = [Brace()]
        self.closed = False  # a brace was closed, and what it was is not known before the next word
        self.last = (-1, -1)  # the statement that ended last
        self.waiting: list[tuple[int, str]] = []  # the comments in the current statement: their offsets and texts
        self.found: list[tuple[int, str, tuple[int, int]]] = []

    def scan(self) -> list[tuple[int, str, tuple[int, int]]]:
        """The comments: the offset, the text, and the statement of each, or (-1, -1) for one without."""
        for token in TOKEN.finditer(self.source):
            if token["left_out"] is None:
                self.word(token[0], token.start(), token.end())
            elif found := OURS.fullmatch(token[0].rstrip()):
                self.comment(token.start(), found["text"])
        self.drop_waiting()
        return self.found

    def comment(self, offset: int, text: str) -> None:
        """A comment at an offset."""
        begin, end = self.last
        if end >= 0 and not self.source[end:offset].strip(" \t"):
            self.found.append((offset, text, (begin, end)))
        elif self.open[-1].begin >= 0 and not self.closed:
            self.waiting.append((offset, text))
        else:
            self.found.append((offset, text, (-1, -1)))

    def word(self, word: str, start: int, end: int) -> None:
        """A word of the source."""
        top = self.open[-1]
        if self.closed:
            self.closed = False
            if word not in AFTER_VALUE:
                self.drop_waiting()
                top.begin = -1
        if word == "{":
            self.open.append(Brace())
        elif word == "}":
            inner = self.open.pop() if len(self.open) > 1 else top
            self.closed = not inner.has_statements
            if inner.has_statements:
                self.open[-1].begin = -1
                self.open[-1].has_statements = True
                self.drop_waiting()
        elif word == ";" and top.depth == 0:
            self.last = (top.begin, end)
            self.found += [(offset, text, self.last) for offset, text in self.waiting]
            self.waiting, top.begin, top.has_statements = [], -1, True
        else:
            top.depth = max(top.depth + (word == "(") - (word == ")"), 0)
            top.begin = start if top.begin < 0 else top.begin

    def drop_waiting(self) -> None:
        """The waiting comments are in no statement."""
        self.found += [(offset, text, (-1, -1)) for offset, text in self.waiting]
        self.waiting = []


@cache
def marks_of(content: bytes) -> tuple[Mark, ...]:
    """The comments of a file, in its order."""
    if b"hippo:" not in content:
        return ()
    source = content.decode("latin-1")
    starts = [0, *(found.end() for found in LINE_END.finditer(source))]
    return tuple(sorted(read(Scanner(source).scan(), starts)))


def read(found: list[tuple[int, str, tuple[int, int]]], starts: list[int]) -> Iterator[Mark]:
    """The comments that a scanner found, as marks."""
    for offset, text, (begin, end) in found:
        line = sum(start <= offset for start in starts)
        place = (line, offset - starts[line - 1] + 1)
        form = FORM.fullmatch(text)
        if not form:
            what = "has no reason" if re.fullmatch(r"volatile\s*,?", text) else "is not of this form"
            yield Mark(*place, f"the comment {what}: // hippo: volatile, REASON")
        elif begin < 0:
            yield Mark(*place, "the comment belongs to no statement: it stands in one, or after one on its line")
        else:
            reason = " ".join(form["reason"].encode("latin-1").decode("utf-8", "replace").split())
            yield Mark(*place, "", reason, begin, end)


@cache
def starts_of(content: bytes) -> tuple[int, ...]:
    """Where the lines of a file begin."""
    return (0, *(found.end() for found in LINE_END.finditer(content.decode("latin-1"))))
