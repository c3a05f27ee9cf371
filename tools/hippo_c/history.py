"""The history of a cache line over a run: the stores into it, its flushes, the fences and the check of a report."""
from collections import deque
from collections.abc import Iterator
from dataclasses import dataclass, field
from typing import Any

from .entries import paths_of_entries
from .images import LINE
from .program import REGION_BASE
from .session import Checked, Session
from .traces import pieces

MOST_EVENTS = 40
# An event of a cache line: the number of its entry, its kind, and the offset and the size of its bytes. Of several fences one after another
# that change nothing (`idle`), there is one event, and the size is their number.
Event = tuple[int, str, int, int]
DURABLE, STORED, FLUSHED = ".", "s", "f"
IDLE = "idle"


@dataclass
class History:
    """The events of a line before a check that are shown: the stores that are reported with the first flush after each, and the last
    events. `state` has a letter for each byte before the first of the last events."""

    line: int
    check: int
    pinned: set[int] = field(default_factory=set)
    state: list[str] = field(default_factory=lambda: [DURABLE] * LINE)
    now: list[str] = field(default_factory=lambda: [DURABLE] * LINE)
    events: deque[Event] = field(default_factory=deque)
    left_out: int = 0
    kept: list[tuple[int, str, Event]] = field(default_factory=list)
    awaits_flush: bool = False

    def take(self, event: Event) -> None:
        """Takes in an event; drops the oldest one that need not be kept if there are too many."""
        changed = applied(self.now, event)
        if event[1] == "fence" and changed == self.now:
            if STORED in changed:
                self.take_idle(event[0])
            return
        if event[1] == "flush" and self.awaits_flush:
            self.pinned.add(event[0])
        self.awaits_flush = event[0] in self.pinned and event[1] == "store" or self.awaits_flush and event[1] != "flush"
        self.now = changed
        self.add(event)

    def take_idle(self, entry: int) -> None:
        """Takes in a fence that changes nothing."""
        last = self.events[-1] if self.events else None
        if last and last[1] == IDLE:
            self.events[-1] = (last[0], IDLE, 0, last[3] + 1)
        else:
            self.add((entry, IDLE, 0, 1))

    def add(self, event: Event) -> None:
        """Adds an event to the last ones."""
        self.events.append(event)
        if len(self.events) > MOST_EVENTS:
            first = self.events.popleft()
            if first[0] in self.pinned and first[1] != IDLE:
                self.kept.append((self.left_out, "".join(self.state), first))
                self.left_out = 0
            else:
                self.left_out += first[3] if first[1] == IDLE else 1
            self.state = applied(self.state, first)

    def data(self, places: dict[int, str]) -> dict[str, Any]:
        """The history as plain data, with the places in C of its events; of each kept event also what is left out before it."""
        return {
            "kept": [
                {"left_out": left_out, "state": state, "event": [*event, places.get(event[0], "")]}
                for left_out, state, event in self.kept
            ],
            "state": "".join(self.state),
            "left_out": self.left_out,
            "events": [[*event, places.get(event[0], "")] for event in self.events],
            "address": REGION_BASE + self.line * LINE,
            "check": self.check,
        }


def applied(state: list[str], event: Event) -> list[str]:
    """The bytes of a line after an event."""
    _, kind, offset, size = event
    if kind == "store":
        return state[:offset] + [STORED] * size + state[offset + size :]
    if kind == IDLE:
        return state
    before, after = (STORED, FLUSHED) if kind == "flush" else (FLUSHED, DURABLE)
    return [after if letter == before else letter for letter in state]


def histories_of(session: Session, results: list[Checked]) -> list[list[dict[str, Any]]]:
    """For each input the history of each group's cache line, up to the check of its first report."""
    found = []
    for checked in results:
        session.progress.say("reading the history of cache lines")
        found.append(histories(session, checked))
    return found


def histories(session: Session, checked: Checked) -> list[dict[str, Any]]:
    """The history of the cache line of each group of one input."""
    by_group = [
        History((checked.trace.wanted[group.entry][0] - REGION_BASE) // LINE, group.check) for group in checked.groups
    ]
    unique = {(history.line, history.check): history for history in sorted(by_group, key=lambda one: one.check)}
    for group, history in zip(checked.groups, by_group):
        unique[history.line, history.check].pinned.add(group.entry)
    by_line: dict[int, list[History]] = {}
    for history in unique.values():
        by_line.setdefault(history.line, []).append(history)
    active: set[int] = set()
    for number, entry in enumerate(pieces(checked.path), 1):
        for line, event in events_of(number, entry, by_line, active):
            for history in by_line[line]:
                if number < history.check:
                    history.take(event)
            settle(active, line, event, by_line[line][-1])
    places = entry_places(session, checked) if checked.groups else {}
    return [unique[history.line, history.check].data(places) for history in by_group]


def settle(active: set[int], line: int, event: Event, history: History) -> None:
    """Updates the set of lines with bytes that are not durable, after an event of a line."""
    if event[1] == "store":
        active.add(line)
    elif event[1] == "fence" and event[0] < history.check and set(history.now) == {DURABLE}:
        active.discard(line)


def events_of(
    number: int, entry: str, lines: dict[int, list[History]], active: set[int]
) -> Iterator[tuple[int, Event]]:
    """The events of an entry, each with its line, in the lines of histories; a fence is an event of the lines that are not durable."""
    word, *rest = entry.split(";")
    if word in ("STORE", "FLUSH", "PERSIST"):
        start, size = int(rest[0], 16) - REGION_BASE, int(rest[-1], 16)
        for line in range(start // LINE, (start + max(size, 1) - 1) // LINE + 1):
            if line in lines:
                first = max(start - line * LINE, 0)
                last = min(start + size - line * LINE, LINE)
                yield line, (number, "store" if word == "STORE" else "flush", first, last - first)
    if word in ("FENCE", "PERSIST"):
        for line in list(active):
            yield line, (number, "fence", 0, 0)


def entry_places(session: Session, checked: Checked) -> dict[int, str]:
    """`FILE:LINE` of each entry whose site is known; what a helper such as `persist(p, n)` does is named by its caller."""
    helpers = session.helpers
    paths = paths_of_entries(session.places, checked.numbers, checked.path, helpers.functions)
    short: dict[tuple[object, ...], str] = {}
    for path in set(paths.values()):
        place = helpers.place(path)
        short[path] = place.short if place else ""
    return {entry: short[path] for entry, path in paths.items()}
