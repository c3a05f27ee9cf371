"""Which lines of the user's C ran, and which did not, on one input or on all of them."""
from __future__ import annotations

from collections.abc import Iterable
from typing import TYPE_CHECKING, NamedTuple

from .letters import shown
from .places import Places

if TYPE_CHECKING:
    from .diagnostics import Printer

# A line: its file and its number.
Line = tuple[str, int]


class Coverage(NamedTuple):
    """The lines that ran, all lines of the program's functions, and whether the whole run was followed."""

    ran: frozenset[Line]
    all: frozenset[Line]
    whole: bool

    @property
    def counts(self) -> tuple[int, int, bool]:
        """How many lines ran, of how many, and whether that is exact."""
        return len(self.ran), len(self.all), self.whole

    def missed(self) -> dict[str, list[tuple[int, int]]]:
        """The lines that did not run, by files, each with the first and the last number of lines that follow one another."""
        by_file: dict[str, list[int]] = {}
        for file, line in sorted(self.all - self.ran):
            by_file.setdefault(file, []).append(line)
        return {file: ranges(lines) for file, lines in by_file.items()}


def coverage_of(places: Places, ran: set[tuple[str, str]], whole: bool) -> Coverage:
    """The lines of the user's functions, and those in the blocks that ran."""
    lines: dict[bool, set[Line]] = {True: set(), False: set()}
    for site, instruction in places.program.sites():
        if instruction.frames:
            lines[site[:2] in ran].update(place[:2] for place in places.of(site) if place.exact)
    return Coverage(frozenset(lines[True]), frozenset(lines[True] | lines[False]), whole)


def united(parts: Iterable[Coverage | None]) -> Coverage | None:
    """The lines that ran in some run; nothing if no run was followed."""
    known = [part for part in parts if part is not None]
    if not known:
        return None
    return Coverage(
        frozenset().union(*(part.ran for part in known)),
        frozenset().union(*(part.all for part in known)),
        all(part.whole for part in known),
    )


def ranges(lines: Iterable[int]) -> list[tuple[int, int]]:
    """Sorted numbers as ranges."""
    found: list[tuple[int, int]] = []
    for line in lines:
        if found and found[-1][1] == line - 1:
            found[-1] = (found[-1][0], line)
        else:
            found.append((line, line))
    return found


def print_missed(printer: Printer, coverage: Coverage | None) -> None:
    """The lines that did not run, a line of text for each file: `log.c:75-76,158: not run`."""
    missed = coverage.missed() if coverage else {}
    how = "not run" if coverage and coverage.whole else "not run, as far as the runs were followed"
    for file, found in missed.items():
        numbers = ",".join(str(first) if first == last else f"{first}-{last}" for first, last in found)
        printer.line(f"{shown(file)}:{numbers}: {how}")
