"""The command suggest-commits: stores that look like commit points, for `--commit`.

Such a store is alone between two fences: the program fences, stores to one cache line, flushes this line, and fences again. The next run, from
what this one leaves, reads it; the sooner it does, the more depends on it."""
import argparse
from collections.abc import Iterator
from dataclasses import dataclass

from . import entries, running
from .checking import printer_of
from .crash_answers import LARGEST_IMAGE, image_of, with_image
from .diagnostics import amount
from .marking import marked_run, marked_text
from .places import Place
from .pools import end_of
from .program import REGION_BASE
from .progress import Progress
from .request import Request
from .session import Session
from .traces import pieces

LINE = 64
MOST_LOADS = 1_000_000


@dataclass
class Candidate:
    """A place whose stores were alone between two fences: how often, the address and the entry of the first, and which of the next run's
    reads is its own; 0 for none."""

    place: Place
    address: int
    entry: int
    count: int = 1
    read: int = 0


def suggest(options: argparse.Namespace, request: Request, progress: Progress) -> int:
    """Lists the candidates, those first that the next run reads first."""
    printer = printer_of(options)
    with Session(request, progress) as session:
        path, _ = session.record(request.inputs[0], "program.trace")
        progress.say("looking for the stores")
        found = candidates_of(session, request.inputs[0], path)
        progress.say("looking for what the next run reads")
        lines = None if session.program.region_size() > LARGEST_IMAGE else lines_read(session, request.inputs[0], path)
        for candidate in found:
            candidate.read = (lines or {}).get((candidate.address - REGION_BASE) // LINE, 0)
        found.sort(key=lambda candidate: (candidate.read == 0, candidate.read, candidate.entry))
        progress.wipe()
        for candidate in found:
            read = f", read {candidate.read:,} of the next run" if candidate.read else ""
            name = session.names.of(candidate.address)
            printer.diagnostic(
                candidate.place,
                "note",
                f"--commit {candidate.place.short}: store to '{name}' in '{candidate.place.function}', "
                f'alone between fences {amount(candidate.count, "time")}{read}',
                True,
            )
        if lines is None:
            printer.line(
                "the region is too large for a run from what this one leaves: the order is that of the first stores"
            )
        printer.line(amount(len(found), "candidate"))
    return 0


def candidates_of(session: Session, numbers: list[int], path: str) -> list[Candidate]:
    """The candidates by their places, in the order of their first stores."""
    found: dict[Place, Candidate] = {}
    sites = entries.paths_of_entries(session.places, numbers, path)
    for number, address in lone_stores(path):
        place = session.places.first(sites.get(number, ()))
        if place is None:
            continue
        if place in found:
            found[place].count += 1
        else:
            found[place] = Candidate(place, address, number)
    return list(found.values())


def lone_stores(path: str) -> Iterator[tuple[int, int]]:
    """The first store, with its address, of each stretch between two fences that stores to one cache line and flushes it."""
    first: tuple[int, int] | None = None
    stored: set[int] = set()
    is_flushed = False
    for number, entry in enumerate(pieces(path), 1):
        word, *rest = entry.split(";")
        if word in ("STORE", "FLUSH", "PERSIST"):
            at, size = int(rest[0], 16), int(rest[-1], 16)
            lines = set(range(at // LINE, (at + max(size, 1) - 1) // LINE + 1))
        if word == "STORE":
            first = first or (number, at)
            stored |= lines
            is_flushed = False
        elif word in ("FLUSH", "PERSIST") and stored & lines:
            is_flushed = True
        if word in ("FENCE", "PERSIST"):
            if first and is_flushed and len(stored) == 1:
                yield first
            first, stored, is_flushed = None, set(), False


def lines_read(session: Session, numbers: list[int], path: str) -> dict[int, int]:
    """The cache lines that the next run reads, each with the number of its first read among the first reads of lines."""
    program = with_image(session.program, image_of(session, path, end_of(path)))
    end = REGION_BASE + session.program.region_size()
    text = marked_text(
        program,
        lambda _, instruction: ([entries.operands(instruction.text.partition(" = ")[2])[1]], [])
        if " = load " in instruction.text
        else ([], []),
    )
    found: dict[int, int] = {}
    with marked_run(text, numbers) as run:
        for count, address in enumerate(run.marks()):
            if REGION_BASE <= address < end:
                found.setdefault((address - REGION_BASE) // LINE, len(found) + 1)
            if count > MOST_LOADS:
                break
        running.stop(run.process)
    return found
