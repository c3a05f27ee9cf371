"""What a trace has: counts of entries, the objects that were stored to, and the wanted stores."""
from collections.abc import Container, Iterator
from dataclasses import dataclass, field

from .program import Program


@dataclass
class Trace:
    """The counts of a trace, and the addresses and sizes of the wanted stores."""

    entries: int = 0
    stores: int = 0
    asserts: int = 0
    flushes: int = 0
    fences: int = 0
    assert_numbers: list[int] = field(default_factory=list)
    limit: int = 0
    end: str = ""
    stored: set[str] = field(default_factory=set)
    wanted: dict[int, tuple[int, int]] = field(default_factory=dict)


def pieces(path: str) -> Iterator[str]:
    """The entries of a trace that hippo wrote, which has one on each line."""
    with open(path, encoding="ascii") as file:
        for line in file:
            yield line.rstrip("\n")


def read_trace(path: str, program: Program, wanted: Container[int] = frozenset()) -> Trace:
    """Reads a trace once; `wanted` has the numbers of stores whose address and size are kept."""
    trace, missing = Trace(), len(program.persistent)
    for number, entry in enumerate(pieces(path), 1):
        trace.entries = number
        word = entry[:3]
        if word == "STO" and entry[3] == "R":
            trace.stores += 1
            if missing > len(trace.stored) or number in wanted:
                keep_store(trace, program, number, entry, number in wanted)
        elif word == "ASS":
            trace.asserts += 1
            trace.assert_numbers.append(number)
        elif word == "FLU":
            trace.flushes += 1
        elif word == "FEN":
            trace.fences += 1
        elif word == "PER":
            trace.flushes, trace.fences = trace.flushes + 1, trace.fences + 1
        elif word == "STA":
            trace.limit = int(entry[6:])
        elif word in ("STO", "TRA", "CUT"):
            trace.end = entry
    return trace


def keep_store(trace: Trace, program: Program, number: int, entry: str, is_wanted: bool) -> None:
    """Notes the object of a store, and the store itself if it is wanted."""
    _, address, _, size = entry.split(";")
    found = program.object_at(int(address, 16))
    if found:
        trace.stored.add(found[0].name)
    if is_wanted:
        trace.wanted[number] = (int(address, 16), int(size, 16))
