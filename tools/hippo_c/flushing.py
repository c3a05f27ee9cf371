"""The words by which a file flushes and fences: functions of its own, those of libpmem, or the processor's.

A function of the user's flushes a range if it takes an address and a number of bytes, has a loop, and does nothing but flush
(`helpers.py`); a macro or a function without parameters fences if it does nothing else."""
from __future__ import annotations

import re
from collections.abc import Iterator
from typing import TYPE_CHECKING, NamedTuple

from lowering.externs import LIBPMEM, LINE_FLUSHES

from .sources import bytes_of

if TYPE_CHECKING:
    from .session import Session

FLUSH = re.compile(rb"\b(?:_mm_clwb|_mm_clflushopt|_mm_clflush|clwb|clflushopt|clflush)\b")
FENCE = re.compile(rb"\b(?:_mm_sfence|_mm_mfence|sfence|mfence|pmem_drain)\b")
LOOP = re.compile(rb"\b(?:for|while)\b")
# A definition at the start of a line: its name, its parameters, and the brace that begins its body.
DEFINITION = re.compile(rb"^(?!#)[\w \t*]*?\b(\w+)[ \t]*\(([^()]*)\)\s*\{", re.M)
FENCE_MACRO = re.compile(
    rb"^[ \t]*#[ \t]*define[ \t]+(\w+)\([ \t]*\)[ \t]+(?:_mm_sfence|_mm_mfence|pmem_drain)\(\)[ \t]*(?://.*|/\*.*)?$",
    re.M,
)


class Own(NamedTuple):
    """A function or a macro of the user's: its name, and the offset in its file from which on it is known."""

    name: str
    known_from: int


class Flushing:
    """The flushes and fences that suggestions use."""

    def __init__(self, session: Session) -> None:
        callees = {instruction.callee for _, instruction in session.program.sites()}
        self.uses_libpmem = bool(callees & LIBPMEM) and not callees & LINE_FLUSHES
        self.flush_with, self.fence_with = session.request.flush_with, session.request.fence_with
        self.helpers = session.helpers
        self.known: dict[str, tuple[list[Own], list[Own]]] = {}

    def own(self, file: str) -> tuple[list[Own], list[Own]]:
        """The functions of a file that flush a range, and those that fence."""
        if file not in self.known:
            source = bytes_of(file)
            flushes = [one for one in flushes_in(source) if one.name in self.helpers.names]
            self.known[file] = flushes, list(fences_in(source, self.helpers.names))
        return self.known[file]

    def flush_of(self, file: str, offset: int) -> str:
        """The function of the user's that flushes a range at a place of a file; an empty text if there is none."""
        if self.flush_with:
            return self.flush_with
        flushes, _ = self.own(file) if not self.uses_libpmem else ([], [])
        return next((one.name for one in flushes if one.known_from <= offset), "")

    def has_range(self, file: str, offset: int) -> bool:
        """Whether the program has a function that flushes a range at a place of a file."""
        return self.uses_libpmem or bool(self.flush_of(file, offset))

    def range(self, file: str, offset: int, address: str, size: str) -> str:
        """The flush of a range at a place of a file."""
        return f'{self.flush_of(file, offset) or "pmem_flush"}({address}, {size});'

    def line(self, file: str, offset: int, stored: str, address: str) -> str:
        """The flush of a stored expression that lies in one cache line."""
        if self.uses_libpmem or self.flush_of(file, offset):
            return self.range(file, offset, address, f"sizeof({stored})")
        return f"_mm_clwb({address});"

    def fence(self, file: str, offset: int) -> str:
        """The fence at a place of a file."""
        if self.fence_with:
            return f"{self.fence_with}();"
        if self.uses_libpmem:
            return "pmem_drain();"
        _, fences = self.own(file)
        name = next((one.name for one in fences if one.known_from <= offset), "_mm_sfence")
        return f"{name}();"


def flushes_in(source: bytes) -> Iterator[Own]:
    """The functions of a file that take an address and a number of bytes and flush in a loop, and do not fence; those that fence come last."""
    found = []
    for name, parameters, body, end in definitions(source):
        given = [one.strip() for one in parameters.split(b",")]
        if len(given) == 2 and b"*" in given[0] and b"*" not in given[1] and LOOP.search(body) and FLUSH.search(body):
            found.append((bool(FENCE.search(body)), Own(name, end)))
    return (one for _, one in sorted(found, key=lambda item: item[0]))


def fences_in(source: bytes, helpers: frozenset[str]) -> Iterator[Own]:
    """The macros and functions of a file that only fence."""
    for found in FENCE_MACRO.finditer(source):
        yield Own(found[1].decode(), found.end())
    for name, parameters, body, end in definitions(source):
        if parameters.strip() in (b"", b"void") and FENCE.search(body) and not FLUSH.search(body) and name in helpers:
            yield Own(name, end)


def definitions(source: bytes) -> Iterator[tuple[str, bytes, bytes, int]]:
    """The functions that a file defines: name, parameters, body, and the offset after it."""
    for found in DEFINITION.finditer(source):
        depth, end = 1, found.end()
        for brace in re.compile(rb"[{}]").finditer(source, found.end()):
            depth += 1 if brace[0] == b"{" else -1
            end = brace.end()
            if depth == 0:
                break
        yield found[1].decode("latin-1"), found[2], source[found.end() : end], end
