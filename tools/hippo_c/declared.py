"""What a program declares volatile to pmemcheck, by requests to Valgrind.

`tools/lower --requests` writes a second text of the program, whose traces have the requests as stores (lowering/requests.py). Here it
runs on the same input. As in pmemcheck, SET_CLEAN takes the earlier stores of its range out of the reports, and REMOVE_PMEM_MAPPING
the later ones, until the range is registered again. A report of the program is declared if the second run reports the same store,
by its places in C, its address and its size, and such a request covers it in each of these reports."""
from __future__ import annotations

import re
from collections.abc import Iterable
from typing import TYPE_CHECKING, NamedTuple

from lowering import lines
from lowering.requests import HELPER, NOTES, REGISTER_FILE, REGISTER_MAPPING, REMOVE_MAPPING, SET_CLEAN

from . import running
from .places import Place, Places
from .places import place_of as place_of_frame
from .program import Program, parse_site
from .reports import Group, grouped, joined
from .traces import pieces
from .trouble import Trouble

if TYPE_CHECKING:
    from .session import Session

CALL = re.compile(rf"call i64 @{re.escape(HELPER)}\(.*, i64 (\d+)\) ; (.*)$", re.M)
NAMES = {
    SET_CLEAN: "VALGRIND_PMC_SET_CLEAN",
    REMOVE_MAPPING: "VALGRIND_PMC_REMOVE_PMEM_MAPPING",
    REGISTER_MAPPING: "VALGRIND_PMC_REGISTER_PMEM_MAPPING",
    REGISTER_FILE: "VALGRIND_PMC_REGISTER_PMEM_FILE",
}
# What identifies a report in both runs: the places in C of its store and of the calls, its address and its size.
Key = tuple[tuple[str, ...], int, int]


class Report(NamedTuple):
    """A line of `hippo check`: the entry of the store, that of the check, and the path as it is written."""

    entry: int
    check: int
    path: str


class Range(NamedTuple):
    """A range of addresses, and the number of the site of the request that names it."""

    start: int
    end: int
    site: int

    def covers(self, address: int, size: int) -> bool:
        """Whether all bytes of a store lie in the range."""
        return self.start <= address and address + size <= self.end


class Declared(NamedTuple):
    """Groups of reports that requests at one place declare volatile."""

    place: Place | None
    groups: list[Group]

    @property
    def reports(self) -> int:
        """The number of reports."""
        return sum(group.count for group in self.groups)


class Declarations:
    """The second text of a program."""

    def __init__(self, session: Session, path: str) -> None:
        self.session, self.path = session, path
        with open(path, encoding="latin-1") as file:
            text = file.read()
        self.program = Program(text)
        self.places = Places(self.program)
        self.site_places = {int(site): place_of(comment) for site, comment in CALL.findall(text)}
        notes = next(item for item in self.program.persistent if item.name.startswith(NOTES))
        self.notes, self.end = notes.address, notes.address

    def split(self, reported: list[str], numbers: list[int], trace: str) -> tuple[list[str], list[Declared]]:
        """The lines of reports that are not declared, and those that are, by the places of the requests."""
        known = self.of_run(numbers)
        stores = stores_of(trace, {report_of(line).entry for line in reported})
        kept: list[str] = []
        found: dict[Place | None, list[str]] = {}
        for line in reported:
            report = report_of(line)
            site = known.get((places_along(self.session.places, report.path), *stores[report.entry]), 0)
            if site:
                found.setdefault(self.site_places.get(site), []).append(line)
            else:
                kept.append(line)
        return kept, [Declared(place, self.groups(taken)) for place, taken in found.items()]

    def groups(self, taken: list[str]) -> list[Group]:
        """The groups of declared reports."""
        return joined(grouped(taken, self.session.paths), lambda site: bool(self.session.places.of(site)))

    def of_run(self, numbers: list[int]) -> dict[Key, int]:
        """The keys of the declared reports of the second run, with the sites of the requests; 0 for those of other reports."""
        session, trace = self.session, self.session.file("declared.trace")
        limit = ["--limit", str(session.request.limit)] if session.request.limit is not None else []
        running.hippo(["record", self.path, *limit, "--", *map(str, numbers)], trace, (0, running.TRAPPED, running.CUT))
        reports = [report_of(line) for line in running.lines_of(["check", self.path, trace])]
        stores, sites = self.covered(trace, reports)
        found: dict[Key, int] = {}
        for report in reports:
            if report.entry in stores:
                key = (places_along(self.places, report.path), *stores[report.entry])
                found[key] = min(found.get(key, sites.get(report, 0)), sites.get(report, 0))
        return found

    def covered(self, trace: str, reports: list[Report]) -> tuple[dict[int, tuple[int, int]], dict[Report, int]]:
        """The addresses and sizes of the program's stores that are reported, and the request that covers each covered report."""
        by_entry: dict[int, list[Report]] = {}
        for report in reports:
            by_entry.setdefault(report.entry, []).append(report)
        removed: list[Range] = []
        stores: dict[int, tuple[int, int]] = {}
        sites: dict[Report, int] = {}
        words: list[int] = []
        for number, entry in enumerate(pieces(trace), 1):
            if not entry.startswith("STORE"):
                continue
            address, value, size = (int(word, 16) for word in entry.split(";")[1:])
            if address >= self.notes:
                words.append(value)
                if len(words) == 4:
                    self.take(words, number, removed, stores, by_entry, sites)
                    words = []
            elif number in by_entry:
                stores[number] = (address, size)
                site = next((item.site for item in removed if item.covers(address, size)), 0)
                sites.update((report, site) for report in by_entry[number] if site)
        return stores, sites

    def take(
        self,
        words: list[int],
        number: int,
        removed: list[Range],
        stores: dict[int, tuple[int, int]],
        by_entry: dict[int, list[Report]],
        sites: dict[Report, int],
    ) -> None:
        """A request, at an entry of the trace: its site, its code and its range."""
        site, code, start, length = words
        if not length or start + length <= self.program.persistent[0].address or start >= self.end:
            return
        given = Range(start, start + length, site)
        if start < self.program.persistent[0].address or given.end > self.end:
            place = self.site_places.get(site)
            raise Trouble(
                f'{place.short if place else "a request"}: the range of {NAMES[code]} is partly outside of persistent memory: '
                f"{length} bytes at {start:#x}"
            )
        if code == REMOVE_MAPPING:
            removed.append(given)
        elif code == SET_CLEAN:
            for entry, (address, size) in stores.items():
                if given.covers(address, size):
                    sites.update(
                        (report, site) for report in by_entry[entry] if report.check > number and report not in sites
                    )
        else:
            removed[:] = [part for item in removed for part in without(item, given)]


def without(item: Range, given: Range) -> list[Range]:
    """The parts of a range that another one leaves."""
    parts = [
        Range(item.start, min(item.end, given.start), item.site),
        Range(max(item.start, given.end), item.end, item.site),
    ]
    return [part for part in parts if part.start < part.end]


def report_of(line: str) -> Report:
    """A line of `hippo check`: `report KIND entry E check C closed N [flush S] path S S S`."""
    _, _, _, entry, _, check, rest = line.split(" ", 6)
    return Report(int(entry), int(check), rest.rpartition("path ")[2])


def places_along(places: Places, path: str) -> tuple[str, ...]:
    """The places in C along a path of sites."""
    return tuple(f"{place} {place.function}" for place in places.along(tuple(map(parse_site, path.split(" ")))))


def place_of(comment: str) -> Place | None:
    """The place of a comment of the text."""
    frames = lines.read(comment)
    return place_of_frame(frames[0]) if frames else None


def stores_of(trace: str, wanted: Iterable[int]) -> dict[int, tuple[int, int]]:
    """The addresses and sizes of the wanted stores of a trace."""
    found = {}
    for number, entry in enumerate(pieces(trace), 1):
        if number in wanted:
            _, address, _, size = entry.split(";")
            found[number] = (int(address, 16), int(size, 16))
    return found
