"""What was found, as text in the format of clang's diagnostics."""
import re
import sys
from collections.abc import Callable
from typing import TextIO

from lowering.names import shortened

from .by_file import print_files
from .letters import shown, shown_line
from .places import Place
from .program import show_site
from .reports import Group
from .session import Checked, Session
from .sources import line_of
from .traps import Trap, advice_of, meaning_of
from .unsupported import UNSUPPORTED, unsupported_in

COLOURS = {
    "warning": "\x1b[0;1;35m",
    "error": "\x1b[0;1;31m",
    "note": "\x1b[0;1;36m",
    "bold": "\x1b[1m",
    "caret": "\x1b[0;1;32m",
    "off": "\x1b[0m",
}

MOST_CALLS = 12


class Printer:
    """Writes diagnostics to a stream, with clang's colours on request."""

    def __init__(
        self, stream: TextIO = sys.stdout, colour: bool = False, source: bool = True, quiet: bool = False
    ) -> None:
        self.stream, self.colour, self.source, self.quiet = stream, colour, source, quiet

    def paint(self, name: str, text: str) -> str:
        """A text in a colour, if colours are on."""
        return f'{COLOURS[name]}{text}{COLOURS["off"]}' if self.colour else text

    def line(self, text: str = "") -> None:
        """Writes a line, without what controls a terminal; a quiet printer writes diagnostics alone."""
        if not self.quiet:
            self.write(shown_line(text))

    def write(self, line: str) -> None:
        """Writes a line whose colours are the only letters that control a terminal."""
        print(line, file=self.stream)

    def diagnostic(
        self, place: Place | None, level: str, message: str, with_source: bool = False, site: str = ""
    ) -> None:
        """Writes `file:line:column: level: message`, on demand with the line of C and a caret; the site stands for an unknown place."""
        if self.quiet and not place and not site and level != "error":
            return
        where = shown_line(f'{show_place(place) if place else site or "hippo-c"}: ')
        text = self.paint("bold", shown(message)) if level != "note" else shown(message)
        self.write(self.paint("bold", where) + self.paint(level, f"{level}: ") + text)
        if with_source and self.source and place and place.exact:
            self.snippet(place)

    def snippet(self, place: Place) -> None:
        """Writes the line of a place, and a caret below its column."""
        code = line_of(place.file, place.line)
        if code is None:
            return
        margin = f"{place.line:5} | "
        self.write(margin + shown(code))
        if place.column:
            blank = "".join("\t" if letter == "\t" else " " for letter in shown(code[: place.column - 1]))
            self.write(" " * 5 + " | " + blank + self.paint("caret", "^"))


def show_place(place: Place) -> str:
    """A place as diagnostics name it."""
    return str(place) if place.column else place.short


def amount(number: int, word: str) -> str:
    """`1 report`, `1,010 reports`."""
    return f'{number:,} {word}{"" if number == 1 else "s"}'


def object_of(session: Session, checked: Checked, group: Group) -> tuple[str, int]:
    """The name and the size of what the first store of a group stores."""
    address, size = checked.trace.wanted[group.entry]
    return session.names.of_store(address, session.places.of_store(group.path[0])), size


def quoted(name: str) -> str:
    """The name of an object in quotes, without the type and the place of one that lies in an arena."""
    path, of, rest = re.split(r"( of an? |$)", name, maxsplit=1)
    return f"'{path}'{of}{rest}"


def images_in_words(number: int) -> str:
    """A number of crash images; a great one by its power of ten."""
    return amount(number, "image") if number < 10**15 else f"about 10^{len(str(number)) - 1} images"


def message_of(session: Session, checked: Checked, group: Group) -> str:
    """What a group says, without its place."""
    name, size = object_of(session, checked, group)
    by = helper_of(session, group)
    count = f', {amount(group.count, "report")}' if group.count > 1 else ""
    return (
        f"store of {amount(size, 'byte')} to {quoted(name)}{by} is not durable {check_of(session, checked, group)} "
        f"[{group.missing}{count}]"
    )


def check_of(session: Session, checked: Checked, group: Group) -> str:
    """The check of a group and its place: `at the check in ring.c:25`, `when 'put' returns in ring.c:31`."""
    place = session.check_place(checked, group.check)
    site = checked.check_sites.get(group.check)
    boundary = session.boundary_checks.get(site) if site else None
    where = boundary.where if boundary else "at the check"
    if group.check == checked.trace.entries:
        where = "at the return of main" if not place or place.function == "main" else "at the end of the run"
    return where + (f" in {place.short}" if place else "")


def helper_of(session: Session, group: Group) -> str:
    """` by 'memcpy'` where the store stands in a function that is not the user's, which the user's code calls."""
    level = next((level for level, site in enumerate(group.path) if session.places.of(site)), 0)
    if level == 0:
        return ""
    return f" by '{shortened(session.program.called(group.path, level).name_in_c)}'"


def print_group(printer: Printer, session: Session, checked: Checked, group: Group) -> None:
    """A warning for a group, with notes for its flush and for each call of its path."""
    places = session.places.along(group.path)
    place = places[0] if places else None
    printer.diagnostic(place, "warning", message_of(session, checked, group), True, show_site(group.path[0]))
    print_merged(printer, place)
    if group.flush:
        flushed = session.helpers.place((group.flush,))
        printer.diagnostic(flushed, "note", "no fence follows this flush", site=show_site(group.flush))
    if note := checked.flush_notes.get(group.entry):
        printer.diagnostic(note.place, "note", note.message)
    print_calls(printer, places)


def print_left_out(printer: Printer, session: Session, checked: Checked) -> None:
    """The groups that the program leaves out, each with the place of the request to pmemcheck or of the suppression."""
    for declared in checked.declared:
        for group in declared.groups:
            print_group(printer, session, checked, group)
            printer.diagnostic(declared.place, "note", "the program declares these bytes volatile to pmemcheck here")
    for suppressed in checked.suppressed:
        for group in suppressed.groups:
            print_group(printer, session, checked, group)
            printer.diagnostic(suppressed.by.place, "note", f"suppressed here: {suppressed.by.reason}")


def declared_line(checked: Checked) -> str:
    """How many reports are of bytes that the program declares volatile, and where it does."""
    count = sum(declared.reports for declared in checked.declared)
    alone = len(checked.declared) == 1
    places = sorted(
        (declared.place.short if declared.place else "?", declared.reports) for declared in checked.declared
    )
    shown = ", ".join(place if alone else f"{place}: {reports:,}" for place, reports in places)
    return f'{amount(count, "report")} of bytes that the program declares volatile ({shown})'


def print_calls(printer: Printer, places: list[Place], most: int | None = None) -> None:
    """A note for each call of a path, at most `most` of them."""
    for inner, outer in list(zip(places, places[1:]))[:most]:
        printer.diagnostic(
            outer, "note", f"'{shortened(inner.function)}' is called here, by '{shortened(outer.function)}'"
        )


def print_merged(printer: Printer, place: Place | None) -> None:
    """A note where a place is that of a function's head."""
    if place and not place.exact:
        printer.diagnostic(
            place, "note", f"clang merged lines of '{shortened(place.function)}' here; -O0 keeps them apart"
        )


def print_trap(printer: Printer, session: Session, ended: str, trap: Trap | None) -> None:
    """Where the run trapped, and by which calls."""
    kind = UNSUPPORTED if trap and trap.unsupported else ended.split(" ")[-1]
    places = session.places.along(trap.path) if trap else []
    place = places[0] if places else None
    printer.diagnostic(place, "error", f"the run trapped: {meaning_of(kind, trap)} [{kind}]", True)
    print_merged(printer, place)
    print_calls(printer, places, MOST_CALLS)
    if len(places) - 1 > MOST_CALLS:
        printer.line(f"  ({len(places) - 1 - MOST_CALLS:,} more calls outwards)")
    if advice := advice_of(trap):
        printer.diagnostic(None, "note", f"what to do: {advice}")


def warnings_of(session: Session, checked: Checked) -> list[str]:
    """Why an answer without reports may be worth less than it seems."""
    found = [*session.request.objects.changed, *unsupported_in(session.program)]
    persistent = session.program.persistent
    if not persistent:
        found.append(
            "no global is persistent, so nothing is checked: put PERSISTENT before the definitions of those "
            "that must be"
        )
    elif checked.trace.asserts == 0:
        found.append(
            "no pm_assert ran, so stores are checked at the return of main alone; "
            "--check-return FUNCTION adds checks"
        )
    found += (f"no check {where} ran in this run" for where in checked.idle)
    for item in persistent:
        if item.name not in checked.trace.stored and item.size:
            found.append(f"nothing was stored to the persistent global '{item.name}' in this run")
    return found


def reported(checked: Checked) -> str:
    """How many reports there are, and how many a suppression in the source leaves out."""
    text = f'{amount(checked.reports, "report")} in {amount(len(checked.groups), "group")}'
    if not checked.suppressed:
        return text
    reports = sum(item.reports for item in checked.suppressed)
    groups = sum(len(item.groups) for item in checked.suppressed)
    return f'{text}, {amount(reports, "report")} in {amount(groups, "group")} suppressed in the source'


def counts_of(checked: Checked) -> str:
    """What ran."""
    trace = checked.trace
    text = f'{amount(trace.stores, "store")} to persistent memory, {amount(trace.asserts, "assert")}'
    if checked.coverage and checked.coverage.all:
        ran, lines, whole = checked.coverage.counts
        text += f', {"" if whole else "at least "}{ran:,} of {amount(lines, "line")} of C ran'
    return text


def print_checked(
    printer: Printer, session: Session, checked: Checked, most: int = 0, notes: Callable[[Group], None] | None = None
) -> None:
    """All that a check of one input found; at most `most` groups if it is not 0. `notes(group)` adds what belongs under a group."""
    shown = checked.groups[:most] if most else checked.groups
    for group in shown:
        print_group(printer, session, checked, group)
        if notes:
            notes(group)
    if len(shown) < len(checked.groups):
        printer.line(f'({amount(len(checked.groups) - len(shown), "more group")}; --groups 0 shows them all)')
    for text in warnings_of(session, checked):
        printer.diagnostic(None, "warning", text)
    if checked.ended.startswith("trap"):
        print_trap(printer, session, checked.ended, checked.trap)
    if checked.ended == "cut":
        printer.diagnostic(
            None, "error", f"the run was cut after {checked.trace.limit:,} turns; --limit N gives it more"
        )
    print_files(printer, session, checked)
    if checked.declared:
        printer.line(declared_line(checked))
    printer.line(f"{reported(checked)}; {counts_of(checked)}")
