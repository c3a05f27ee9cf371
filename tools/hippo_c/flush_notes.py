"""The first flush after a store that is reported as not flushed: is it too short, or of another object?

All of it stands in the trace. A flush is too short if it covers a part of the object around the store, but not the store's cache line; it
is of another object if it flushes nothing that was stored, and stands in the same function as the store."""
from __future__ import annotations

from dataclasses import dataclass, replace
from typing import NamedTuple

from .enclosing import Object, around
from .entries import Made, entries_made
from .helpers import Helpers
from .images import LINE
from .places import Place
from .reports import Group
from .session import Checked, Session
from .traces import pieces


class FlushNote(NamedTuple):
    """What is said of a flush: its place, and how many bytes of which object it covers; no bytes if it is of another one."""

    place: Place
    message: str
    covered: int
    object: Object


@dataclass
class Flush:
    """Flushes without a store between them, as one range: the first entry, the addresses, and the entry and the address of the last store
    that they flush."""

    entry: int
    start: int
    end: int
    stored: tuple[int, int] | None
    entries: int = 1
    is_exact: bool = False

    def take(self, start: int, end: int, stored: tuple[int, int] | None) -> bool:
        """Takes in a flush that begins where this one ends; false if it does not."""
        if not self.start <= start <= self.end:
            return False
        self.end, self.entries = max(self.end, end), self.entries + 1
        self.stored = max(filter(None, (self.stored, stored)), default=None)
        return True


def give(session: Session, results: list[Checked]) -> None:
    """Notes for the groups of each result what the first flush after the store does wrong."""
    for checked in results:
        wanted = {group.entry: group for group in checked.groups if group.kind in ("flush", "both")}
        flushes = first_flushes(checked.path, wanted) if wanted else {}
        suspects = {entry: flush for entry, flush in flushes.items() if is_suspect(session, checked, entry, flush)}
        if not suspects:
            continue
        session.progress.say("looking for the flushes")
        helpers = session.helpers
        made = made_by(session, checked, helpers, {flush.entry for flush in suspects.values()})
        for entry, flush in suspects.items():
            what = made.get(flush.entry, Made((), ()))
            place = helpers.place(what.sites)
            if place and (note := note_of(session, checked, wanted[entry], given(flush, what), place)):
                checked.flush_notes[entry] = note


def made_by(session: Session, checked: Checked, helpers: Helpers, wanted: set[int]) -> dict[int, Made]:
    """What made some entries."""
    found: dict[int, Made] = {}
    for number, made in entries_made(session.places, checked.numbers, checked.path, helpers.functions):
        if number in wanted:
            found[number] = made
        if number >= max(wanted):
            break
    return found


def given(flush: Flush, made: Made) -> Flush:
    """A flush with the bytes that it was given; the trace has whole cache lines. A flush of several entries is what they cover."""
    if len(made.values) < 2 or flush.entries > 1:
        return flush
    start, size = made.values
    return replace(flush, start=start, end=start + size, is_exact=True)


def first_flushes(path: str, wanted: dict[int, Group]) -> dict[int, Flush]:
    """The first flush after each wanted store and before its check, by the entry of the store."""
    found: dict[int, Flush] = {}
    waiting: dict[int, Group] = {}
    dirty: dict[int, tuple[int, int]] = {}
    now: Flush | None = None
    for number, entry in enumerate(pieces(path), 1):
        word, *rest = entry.split(";")
        if word not in ("STORE", "FLUSH", "PERSIST"):
            continue
        start, size = int(rest[0], 16), int(rest[-1], 16)
        lines = set(range(start // LINE, (start + max(size, 1) - 1) // LINE + 1))
        if word == "STORE":
            dirty.update(dict.fromkeys(lines, (number, start)))
            now = None
            if number in wanted:
                waiting[number] = wanted[number]
            continue
        stored = max((dirty.pop(line) for line in lines if line in dirty), default=None)
        if now is None or not now.take(start, start + size, stored):
            now = Flush(number, start, start + size, stored)
            found.update((one, now) for one, group in waiting.items() if number < group.check)
            waiting = {}
    return found


def is_suspect(session: Session, checked: Checked, entry: int, flush: Flush) -> bool:
    """Whether a flush may be the one that was meant for a store, and does not cover it."""
    address, size = checked.trace.wanted[entry]
    first, last = address // LINE, (address + size - 1) // LINE
    if flush.start // LINE <= first and last <= (flush.end - 1) // LINE:
        return False
    item = around(session.names, address)
    if item is None or flush.stored is None:
        return item is not None
    return is_of(session, item, flush) and 0 < covered_of(item, flush) < item.size


def is_of(session: Session, item: Object, flush: Flush) -> bool:
    """Whether a flush is meant for an object, and not for one inside it or beside it: it begins there if its bytes are known, and
    otherwise the last store that it flushes is there."""
    if not flush.is_exact and flush.stored:
        return around(session.names, flush.stored[1]) == item
    return around(session.names, flush.start) == item


def covered_of(item: Object, flush: Flush) -> int:
    """How many bytes of an object a flush covers."""
    return max(min(item.end, flush.end) - max(item.address, flush.start), 0)


def note_of(session: Session, checked: Checked, group: Group, flush: Flush, place: Place) -> FlushNote | None:
    """What to say of a flush at a place; nothing if it is of no use elsewhere."""
    address, _ = checked.trace.wanted[group.entry]
    item = around(session.names, address)
    if item is None:
        return None
    covered = covered_of(item, flush)
    if is_of(session, item, flush) and 0 < covered < item.size:
        message = f"the flush here covers {covered:,} of the {item.size:,} bytes of '{item.name}'"
        return FlushNote(place, message, covered, item)
    store = session.places.first(group.path)
    if flush.stored is not None or store is None or store.function != place.function:
        return None
    message = (
        f"the flush here is of '{session.names.of(flush.start)}', to which nothing was stored since its last flush"
    )
    return FlushNote(place, message, 0, item)
