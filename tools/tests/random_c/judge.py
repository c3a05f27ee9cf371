"""Compares a trace, and the reports of hippo on it, with what the model of a file of programs says."""
from __future__ import annotations

import re
from collections.abc import Iterable

from .layout import Object
from .model import DURABLE, LINE, NEITHER, NO_FENCE, NO_FLUSH, Byte, Event, States
from .program import File

BASE = 1 << 32
GLOBAL = re.compile(r'^@([\w.$]+) = .*, section "\.pm", align (\d+)', re.M)
REPORT = re.compile(r"report (\w+) entry (\d+) check (\d+) ")
FROM_BEST = (DURABLE, NO_FENCE, NO_FLUSH, NEITHER)
EVENTS = ("FLUSH", "FENCE", "PERSIST", "ASSERT")


class Addresses:
    """Where the objects of a file are in its lowered text. Each begins a cache line, and they follow in the order of the text."""

    def __init__(self, text: str, objects: list[Object]) -> None:
        by_name = {one.name: one for one in objects}
        self.bases: dict[int, int] = {}
        self.bytes: dict[int, Byte] = {}
        end = BASE
        for name, alignment in GLOBAL.findall(text):
            one = by_name[name]
            if int(alignment) % LINE:
                raise AssertionError(f"@{name} is at {alignment}")
            base = self.bases[one.number] = -(-end // LINE) * LINE
            self.bytes.update((base + at, (one.number, at)) for at in range(one.size))
            end = base + one.size
        if len(self.bases) != len(objects):
            raise AssertionError(f"{len(self.bases)} of {len(objects)} objects are in the text")


class Judge:
    """The run of a file: its trace, entry by entry, beside the model."""

    def __init__(self, file: File, addresses: Addresses, trace: str, reports: str) -> None:
        self.file, self.addresses = file, addresses
        self.entries = [entry.split(";") for entry in trace.split("\n") if entry]
        self.reported: dict[int, dict[int, str]] = {}
        for kind, entry, check in REPORT.findall(reports):
            self.reported.setdefault(int(check), {})[int(entry)] = kind
        # The number of the last store to each byte.
        self.last: dict[Byte, int] = {}

    def difference(self) -> tuple[int, str] | None:
        """The first place that is not as the model says, with the seed of its program; nothing if there is none."""
        events, stored = iter(self.file.region.events), set()
        seed = self.file.programs[0].seed
        for number, entry in enumerate(self.entries, 1):
            if entry[0] == "STORE":
                for address in range(int(entry[1], 16), int(entry[1], 16) + int(entry[3], 16)):
                    if address not in self.addresses.bytes:
                        return seed, f'entry {number}: {";".join(entry)} is outside of the objects'
                    byte = self.addresses.bytes[address]
                    self.last[byte] = number
                    stored.add(byte)
            elif entry[0] in (*EVENTS, "STOP", "TRAP", "CUT"):
                event = next(events, None)
                seed = event.seed if event else seed
                if wrong := self.wrong(number, entry, event, stored):
                    return seed, f'entry {number}, {";".join(entry)}: {wrong}'
                stored = set()
        return (seed, "the trace lacks events") if next(events, None) else None

    def wrong(self, number: int, entry: list[str], event: Event | None, stored: set[Byte]) -> str:
        """What is wrong with an entry that is no store; an empty text if nothing is."""
        if event is None:
            return "the model has no more events"
        wanted = self.text_of(event)
        if entry != wanted:
            return f'{";".join(wanted)} is expected'
        if missing := event.must - stored:
            return f"no store before it to {sorted(missing)[:3]}"
        if more := stored - event.must - event.may:
            return f"a store before it to {sorted(more)[:3]}"
        if event.kind in ("ASSERT", "END"):
            return self.wrong_reports(number, event)
        return "reports of an entry that is no check" if number in self.reported else ""

    def text_of(self, event: Event) -> list[str]:
        """The entry of an event."""
        if event.kind == "END":
            return ["STOP", "0"]
        if event.kind == "FENCE":
            return ["FENCE"]
        return [event.kind, f"{self.addresses.bases[event.object] + event.offset:#x}", f"{event.size:#x}"]

    def wrong_reports(self, number: int, check: Event) -> str:
        """The first store whose report at a check is another than the model's, or a report of a store that is not the last one to a byte."""
        reports = self.reported.pop(number, {})
        parts: dict[int, dict[Byte, States]] = {}
        for byte, states in check.states.items():
            of_store = parts.setdefault(self.last.get(byte, 0), {})
            line = byte[0], byte[1] // LINE
            of_store[line] = of_store.get(line, states) & states
        for entry, of_store in parts.items():
            kind, kinds = reports.get(entry, DURABLE), kinds_of(of_store.values())
            if kind not in kinds:
                wanted = " or ".join(one or "durable" for one in sorted(kinds))
                return f'entry {entry}, in the lines {sorted(of_store)}, is reported as {kind or "durable"} where the model says {wanted}'
        more = set(reports) - set(parts)
        return f"reports of entries {sorted(more)[:3]}, which are not the last stores" if more else ""


def kinds_of(parts: Iterable[States]) -> set[str]:
    """The possible kinds of the report of a store: what the worst of its parts lacks. It has a part in each line that it reaches, with a state of its own."""
    found = {DURABLE}
    for states in parts:
        found = {max(one, other, key=FROM_BEST.index) for one in found for other in states}
    return found
