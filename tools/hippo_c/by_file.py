"""The groups of a check by files, and which of these files flush anything: where many groups have one cause, it is named."""
from __future__ import annotations

from collections import Counter
from typing import TYPE_CHECKING, Any

from lowering.externs import EXTERNS

from .letters import shown

if TYPE_CHECKING:
    from .diagnostics import Printer
    from .session import Checked, Session

# With fewer groups the list itself is short.
FEW = 10
FLUSHES = frozenset(name for name, row in EXTERNS.items() if "flush" in row.effect)


def files_of(session: Session, results: list[Checked]) -> list[dict[str, Any]]:
    """For each file with groups how many there are, over all inputs, and how many places of it flush; most groups first."""
    groups = Counter[str]()
    for checked in results:
        groups.update(counts_of(session, checked))
    flushes = flushes_of(session) if groups else Counter[str]()
    return [
        {"file": file, "groups": count, "flushes": flushes[file]}
        for file, count in sorted(groups.items(), key=lambda item: (-item[1], item[0]))
    ]


def counts_of(session: Session, checked: Checked) -> Counter[str]:
    """The number of groups in each file."""
    places = [session.places.first(group.path) for group in checked.groups]
    return Counter(place.file for place in places if place)


def flushes_of(session: Session) -> Counter[str]:
    """The number of places in each file that flush, by themselves or by a function that only flushes and fences."""
    helpers = session.helpers
    found = set()
    for site, instruction in session.program.sites():
        if instruction.callee in FLUSHES or instruction.callee in helpers.functions:
            if place := helpers.outside(session.places.of(site)):
                found.add(place)
    return Counter(place.file for place in found)


def print_files(printer: Printer, session: Session, checked: Checked) -> None:
    """Where there are many groups, a line for each file: `38 groups in hashtable.c, which has no flush`."""
    if len(checked.groups) <= FEW:
        return
    for row in files_of(session, [checked]):
        why = ", which has no flush" if not row["flushes"] else ""
        printer.line(f'{row["groups"]:,} group{"s" if row["groups"] > 1 else ""} in {shown(row["file"])}{why}')
