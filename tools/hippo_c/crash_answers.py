"""What the images of a crash showed, by C lines."""
from __future__ import annotations

import re
import shlex
import tempfile
from dataclasses import dataclass
from typing import TYPE_CHECKING

from . import images, running
from .diagnostics import Printer, amount, print_calls, print_merged
from .entries import paths_of_entries
from .places import Place
from .program import GLOBAL, REGION_BASE, Program, Site
from .session import Session
from .traces import read_trace
from .traps import MEANING, Trap, find_trap

if TYPE_CHECKING:
    from .crashing import Exploration, Outcome

LARGEST_IMAGE = 1 << 26
MOST_LOST = 4
MOST_CALLS = 4


@dataclass
class Row:
    """The entries at one place after which a crash leaves an image that fails in one way."""

    place: Place | None
    ended: str
    outcomes: list[Outcome]
    failing: int = 0
    tried: int = 0

    @property
    def best(self) -> Outcome:
        """The outcome with the smallest image."""
        return min(self.outcomes, key=lambda outcome: (len(outcome.point.picks), outcome.point.entry))


def print_crashes(
    printer: Printer, session: Session, path: str, found: Exploration, smallest: list[Outcome], again: list[str]
) -> None:
    """The table of failing points by C line; the first has its smallest image and the command that repeats it."""
    paths = paths_of_entries(session.places, session.request.inputs[0], path) if found.failing else {}
    rows = rows_of(session, found, smallest, paths)
    session.progress.wipe()
    for number, row in enumerate(rows):
        print_row(printer, row, number == 0)
        if number == 0:
            print_recovery_trap(printer, session, path, row.best)
            print_lost(printer, session, path, row.best.point, paths)
        printer.line(f"  see it again: {shlex.join([*again, *again_words(session, row.best.point)])}")
    of_all = "" if found.entries == found.all_entries else f"{found.entries:,} of "
    entries = amount(found.all_entries, "entry").replace("entrys", "entries")
    limit = "" if found.whole else " (the time ran out before all were tried)"
    printer.line(
        f'{amount(found.count, "crash image")} after {of_all}{entries} tried{limit}; {amount(len(found.failing), "run")} failed'
    )


def again_words(session: Session, point: images.Point) -> list[str]:
    """The words that select an image, after those of the command, with the arguments for clang."""
    words = ["--entries", str(point.entry), "--pick", *(f"{line}:{upto}" for line, upto in point.picks)]
    return words + (["--", *session.request.clang] if session.request.clang else [])


def rows_of(
    session: Session, found: Exploration, smallest: list[Outcome], paths: dict[int, tuple[Site, ...]]
) -> list[Row]:
    """Rows by the place of the entry and the ending, in the order of their first entries."""
    rows: dict[tuple[object, ...], Row] = {}
    by_entry = {}
    for outcome in smallest:
        place = session.places.first(paths.get(outcome.point.entry, ()))
        row = rows.setdefault((place, outcome.ended), Row(place, outcome.ended, []))
        row.outcomes.append(outcome)
        row.tried += found.tried[outcome.point.entry]
        by_entry[outcome.point.entry] = row
    for outcome in found.failing:
        by_entry[outcome.point.entry].failing += 1
    return list(rows.values())


def print_row(printer: Printer, row: Row, with_source: bool) -> None:
    """The error for the entries at one place."""
    where = "here" if row.place else f"after entry {row.best.point.entry} of the trace"
    printer.diagnostic(
        row.place,
        "error",
        f"after a power cut {where} the next run fails: {meaning(row.ended)} "
        f'[{row.failing:,} of {amount(row.tried, "image")}]',
        with_source,
    )


def meaning(ended: str) -> str:
    """How a run ended, in words."""
    word, _, kind = ended.partition(" ")
    if word == "trap":
        return MEANING.get(kind, kind)
    return "it does not end within the limit of turns" if word == "cut" else f"main returns {kind}"


def print_recovery_trap(printer: Printer, session: Session, path: str, outcome: Outcome) -> None:
    """Where the run from the image trapped, by the program with the image as its initial bytes."""
    if not outcome.ended.startswith("trap"):
        return
    trap = trap_from_image(session, path, outcome)
    places = session.places.along(trap.path) if trap else []
    for place in places[:1]:
        printer.diagnostic(place, "note", "the run from that image ends here")
        print_merged(printer, place)
    print_calls(printer, places, MOST_CALLS)


def trap_from_image(session: Session, path: str, outcome: Outcome) -> Trap | None:
    """The trap of the run from an image; nothing if the image is too large to be written as a constant."""
    if session.program.region_size() > LARGEST_IMAGE:
        return None
    image = image_of(session, path, outcome.point)
    program = with_image(session.program, image)
    return find_trap(program, session.request.inputs[0], outcome.ended.split(" ")[1])


def image_of(session: Session, path: str, point: images.Point) -> bytearray:
    """The bytes that hippo makes of a point, from the header of the trace of its run."""
    image = bytearray(session.program.region_size())
    words = ["crash", session.text_path, path, str(point.entry), *(f"{line}:{upto}" for line, upto in point.picks)]
    with tempfile.TemporaryFile() as out:
        ended = running.finish(running.start([running.hippo_program(), *words], stdout=out))
        running.accept(words, ended, (0, running.TRAPPED, running.CUT))
        out.seek(0)
        for line in out:
            if not line.startswith((b"START", b"REGISTER", b"INPUT", b"IMAGE")):
                break
            if line.startswith(b"IMAGE"):
                _, address, digits = line.decode("ascii").strip().split(";")
                at = int(address, 16) - REGION_BASE
                image[at : at + 64] = bytes.fromhex(digits)
    return image


def with_image(program: Program, image: bytearray) -> Program:
    """The program whose persistent globals begin with the bytes of an image."""
    changed = Program("")
    changed.functions, changed.blocks = program.functions, program.blocks
    where = {item.name: item for item in program.persistent}
    for line in program.head:
        found = GLOBAL.match(line)
        if found and found[1] in where:
            item = where[found[1]]
            at = item.address - REGION_BASE
            line = (
                f'@{found[1]} = global {constant_of(image[at:at + item.size])}, section ".pm", align {item.alignment}'
            )
        changed.head.append(line)
    return changed


def constant_of(content: bytearray) -> str:
    """The type and the value of a global with these bytes; long pieces of zeros take no room in the text."""
    pieces = []
    for zeros, other in re.findall(rb"(\0{64,})|((?:(?!\0{64,}).)+)", content, re.S):
        values = ", ".join(f"i8 {byte - 256 * (byte > 127)}" for byte in other)
        pieces.append((f"[{len(zeros or other)} x i8]", "zeroinitializer" if zeros else f"[{values}]"))
    types, values = ", ".join(type_ for type_, _ in pieces), ", ".join(f"{type_} {value}" for type_, value in pieces)
    return f"{{ {types} }} {{ {values} }}"


def print_lost(
    printer: Printer, session: Session, path: str, point: images.Point, paths: dict[int, tuple[Site, ...]]
) -> None:
    """The stores that the image does not have, by C lines."""
    lost = images.lost_stores(path, point)
    stores = read_trace(path, session.program, set(lost)).wanted
    by_place: dict[Place | None, list[int]] = {}
    for entry in lost:
        by_place.setdefault(session.places.first(paths.get(entry, ())), []).append(entry)
    for place, entries in list(by_place.items())[:MOST_LOST]:
        name = session.names.of(stores[entries[0]][0])
        count = "this store is" if len(entries) == 1 else f"{len(entries):,} stores of this line are"
        first = "it is" if len(entries) == 1 else "the first is"
        printer.diagnostic(place, "note", f"{count} not in the image; {first} to '{name}'")
    if len(by_place) > MOST_LOST:
        printer.line(f'  (stores of {amount(len(by_place) - MOST_LOST, "more line")} are not in the image)')
