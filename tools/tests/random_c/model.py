"""Persistent memory as bytes and cache lines, by the rules of the field: a store is durable when a flush of its line and then a fence follow it."""
from __future__ import annotations

import itertools
from dataclasses import dataclass, field

LINE = 64
# The states of a byte: what its last store lacks, as hippo's reports name it; nothing if the byte is durable.
DURABLE, NO_FLUSH, NO_FENCE, NEITHER = "", "flush", "fence", "both"
ALL = (DURABLE, NO_FLUSH, NO_FENCE, NEITHER)
# The possible states of a byte: a compiler may have stored it or not.
States = frozenset[str]
ONLY_DURABLE, ONLY_NEITHER = frozenset([DURABLE]), frozenset([NEITHER])


def after(step: dict[str, str]) -> dict[States, States]:
    """The possible states after a step, for all possible states before it."""
    sets = [frozenset(some) for count in range(1, len(ALL) + 1) for some in itertools.combinations(ALL, count)]
    return {states: frozenset(step[state] for state in states) for states in sets}


AFTER_FLUSH = after({DURABLE: DURABLE, NO_FLUSH: NO_FENCE, NO_FENCE: NO_FENCE, NEITHER: NO_FENCE})
AFTER_FENCE = after({DURABLE: DURABLE, NO_FLUSH: NO_FLUSH, NO_FENCE: DURABLE, NEITHER: NO_FLUSH})
# A place: the number of an object and an offset in it.
Byte = tuple[int, int]


@dataclass
class Event:
    """A flush, a fence, a `pmem_persist` or a check, of the program of a seed. `size` counts bytes from a place.

    `must` are the bytes that were stored since the event before it, and `may` those that a compiler may have stored too, such as padding.
    """

    kind: str
    seed: int
    object: int = 0
    offset: int = 0
    size: int = 0
    must: set[Byte] = field(default_factory=set)
    may: set[Byte] = field(default_factory=set)
    # Of a check: the possible states of each of its bytes.
    states: dict[Byte, States] = field(default_factory=dict)


class Region:
    """The persistent objects, each at the beginning of a cache line, and what happened to them. `seed` is that of the program that runs."""

    def __init__(self, sizes: list[int]) -> None:
        self.sizes, self.seed = sizes, 0
        self.states: dict[Byte, States] = {}
        self.events: list[Event] = []
        self.must: set[Byte] = set()
        self.may: set[Byte] = set()

    def store(self, number: int, offset: int, size: int) -> None:
        """A store of bytes of an object."""
        assert 0 <= offset and offset + size <= self.sizes[number], (number, offset, size)
        for at in range(offset, offset + size):
            self.states[number, at] = ONLY_NEITHER
            self.must.add((number, at))

    def may_store(self, number: int, offset: int, size: int) -> None:
        """A store of bytes of an object that a compiler may leave out."""
        for at in range(offset, offset + size):
            self.states[number, at] = self.states.get((number, at), ONLY_DURABLE) | ONLY_NEITHER
            self.may.add((number, at))

    def event(self, kind: str, number: int = 0, offset: int = 0, size: int = 0) -> Event:
        """Notes an event after the stores since the last one."""
        happened = Event(kind, self.seed, number, offset, size, self.must, self.may)
        self.events.append(happened)
        self.must, self.may = set(), set()
        return happened

    def flush_lines(self, number: int, offset: int, size: int) -> tuple[int, int]:
        """Flushes the lines of a range; the offset of the first line and the size of all of them."""
        first, end = offset // LINE * LINE, -(-(offset + size) // LINE) * LINE
        for at in range(first, end):
            if (number, at) in self.states:
                self.states[number, at] = AFTER_FLUSH[self.states[number, at]]
        return first, end - first

    def flush(self, number: int, offset: int, size: int = 1) -> None:
        """A flush of the lines of a range."""
        self.event("FLUSH", number, *self.flush_lines(number, offset, size))

    def fence(self) -> None:
        """A fence."""
        self.event("FENCE")
        self.settle()

    def settle(self) -> None:
        """Makes durable what is flushed; bytes that are durable for sure are forgotten."""
        self.states = {at: AFTER_FENCE[states] for at, states in self.states.items() if states != ONLY_DURABLE}

    def persist(self, number: int, offset: int, size: int) -> None:
        """A flush of the lines of a range, and a fence."""
        self.event("PERSIST", number, *self.flush_lines(number, offset, size))
        self.settle()

    def check(self, number: int, offset: int, size: int) -> None:
        """A check of a range."""
        self.event("ASSERT", number, offset, size).states = self.states_of(number, range(offset, offset + size))

    def states_of(self, number: int, offsets: range) -> dict[Byte, States]:
        """The possible states of bytes of an object."""
        return {(number, at): self.states.get((number, at), ONLY_DURABLE) for at in offsets}

    def end(self) -> None:
        """The check of all objects at the return of `main`."""
        last = self.event("END")
        for number, size in enumerate(self.sizes):
            last.states |= self.states_of(number, range(size))
