"""Several inputs together: what one repair for all of them adds, by `hippo many`."""
from lowering.names import shortened

from .diagnostics import Printer
from .program import parse_site
from .session import Checked, Session
from .suggesting import repaired_program

WHAT = {"flush": "a flush after this store", "fence": "a fence after this", "hoist": "a flushing clone for this call"}


def print_together(printer: Printer, session: Session, results: list[Checked]) -> None:
    """For each place of the common repair, how many inputs need it."""
    if not any(checked.groups for checked in results):
        return
    _, ended = repaired_program(session, results)
    session.progress.wipe()
    printer.line("all inputs together:")
    for line in ended.notes.split("\n"):
        words = line.split(" ")
        if words[0] == "why":
            site = parse_site(words[2])
            place = session.places.first((site,))
            of = "" if place else f" of '{shortened(session.program.functions[site[0]].name_in_c)}'"
            printer.diagnostic(place, "note", f"{words[4]} of {len(results)} inputs need {WHAT[words[1]]}{of}")
