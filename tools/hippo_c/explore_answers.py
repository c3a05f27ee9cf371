"""What explore shows: groups over all inputs, failures after power cuts by their causes, and what was covered."""
from __future__ import annotations

import argparse
import re
from collections.abc import Sized

from .again import Again
from .confirming import Confirmed, ShownFailure, ShownGroup, ShownOutputs
from .diagnostics import Printer, amount, images_in_words, message_of, print_calls, print_merged, show_place
from .findings import Found
from .places import Place
from .program import Site, show_site
from .session import Session
from .traps import MEANING

MOST_LOST = 4
MOST_CALLS = 4
MOST_PRINTS = 16


def print_answer(
    printer: Printer,
    session: Session,
    options: argparse.Namespace,
    found: Found,
    confirmed: Confirmed,
    again: Again,
) -> None:
    """The whole answer as text."""
    groups = confirmed.groups[: options.groups] if options.groups else confirmed.groups
    for shown in groups:
        print_group(printer, session, shown, confirmed.checked, again)
    if len(groups) < len(confirmed.groups):
        printer.line(f'({amount(len(confirmed.groups) - len(groups), "more group")}; --groups 0 shows them all)')
    for failure in confirmed.failures:
        print_failure(printer, session, failure, again)
    for outputs in confirmed.outputs:
        print_outputs(printer, session, outputs, again)
    for report, crashes in confirmed.after_crashes:
        place = session.places.first(report.key[2])
        printer.diagnostic(
            place,
            "warning",
            f"a store of the run after a power cut is not durable [missing-{report.key[0]}]",
            True,
            show_site(report.key[2][0]),
        )
        printer.line(f"  see that run: {again.crash(report, crashes, report.limit)}")
    print_counts(printer, session, options, found, confirmed, again)
    if confirmed.interrupted:
        printer.line("interrupted: the answer has what was found and confirmed until then")
    if options.show_missed:
        print_missed(printer, session, found)


def print_group(printer: Printer, session: Session, shown: ShownGroup, checked: int, again: Again) -> None:
    """A warning for a group, with the notes of `check`."""
    group = shown.group
    places = session.places.along(group.path)
    message = re.sub(r" \[[^\]]*\]$", "", message_of(session, shown.checked, group))
    printer.diagnostic(
        places[0] if places else None,
        "warning",
        f'{message} [{group.missing}, {shown.inputs} of {amount(checked, "input")}]',
        True,
        show_site(group.path[0]),
    )
    print_merged(printer, places[0] if places else None)
    if group.flush:
        flushed = session.places.first((group.flush,))
        printer.diagnostic(flushed, "note", "no fence follows this flush", site=show_site(group.flush))
    print_calls(printer, places)
    printer.line(f"  see it again: {again.check(shown.checked.numbers, shown.start)}")


def print_failure(printer: Printer, session: Session, shown: ShownFailure, again: Again) -> None:
    """An error for a cause: where the power was cut, where the next run ends, and which stores are lost."""
    failure = shown.failure
    place = session.places.first(failure.at)
    where = "here" if place else f"after entry {shown.crashes[-1].entry} of the trace"
    when = (
        f"after a power cut {where}"
        if failure.level == 1
        else f"after a power cut, and another one in the recovery {where},"
    )
    printer.diagnostic(place, "error", f"{when} {what_fails(session, shown)}", True)
    print_calls(printer, session.places.along(failure.at), MOST_CALLS)
    places = session.places.along(failure.path)
    if places:
        printer.diagnostic(places[0], "note", "the run from that image ends here")
        print_merged(printer, places[0])
        print_calls(printer, places, MOST_CALLS)
    for lost in failure.lost[:MOST_LOST]:
        printer.diagnostic(
            session.places.first(lost.path),
            "note",
            f"this store to '{session.names.of(lost.address)}' is lost",
            site=show_site(lost.path[0]),
        )
    if len(failure.lost) > MOST_LOST:
        printer.line(f'  (and {amount(len(failure.lost) - MOST_LOST, "more store")})')
    if not failure.lost:
        printer.line("  (no store before the power cut is lost)")
    limit = failure.limit if failure.ended == "cut" else None
    printer.line(f"  see it again: {again.crash(failure, shown.crashes, limit)}")


def what_fails(session: Session, shown: ShownFailure) -> str:
    """What a power cut does: an acknowledged operation is lost, or the next run fails for another reason."""
    if shown.lost_print:
        return lost_in_words(session, shown.lost_print)
    return f"the next run fails: {ending_in_words(shown.failure.ended)}"


def lost_in_words(session: Session, lost: tuple[int, Site]) -> str:
    """The loss of an acknowledged operation: the number of its print, and where it stands."""
    place = session.places.first(lost[1:])
    return f'an acknowledged operation is lost: print {lost[0]:,}{f" ({place.short})" if place else ""}'


def print_outputs(printer: Printer, session: Session, shown: ShownOutputs, again: Again) -> None:
    """An error for an operation that a power cut leaves neither done nor not done, or that is lost although it was acknowledged."""
    outputs = shown.outputs
    printer.diagnostic(
        session.places.first(outputs.at), "error", f"after a power cut here {what_differs(session, shown)}", True
    )
    for numbers, name in (
        (shown.printed, "the next run prints"),
        (shown.wanted, "with the operation it prints"),
        (shown.wanted_without, "without the operation it prints"),
    ):
        if not outputs.is_acknowledged or not name.startswith("without"):
            printer.line(f'  {name}: {" ".join(numbers[:MOST_PRINTS])}{" .." if len(numbers) > MOST_PRINTS else ""}')
    printer.line(f'  the next run reads: {" ".join(map(str, outputs.resumed))}')
    printer.line(f"  its image: {again.crash(outputs, shown.crashes, None)}")


def what_differs(session: Session, shown: ShownOutputs) -> str:
    """What a power cut does to an operation."""
    if shown.lost_print:
        return lost_in_words(session, shown.lost_print)
    return f"operation {shown.outputs.operation} is neither done nor not done"


def ending_in_words(ended: str) -> str:
    """How a run ended."""
    word, _, kind = ended.partition(" ")
    if word == "trap":
        return MEANING.get(kind, kind)
    return "it does not end within the limit of turns" if word == "cut" else f"main returns {kind}"


def print_counts(
    printer: Printer, session: Session, options: argparse.Namespace, found: Found, confirmed: Confirmed, again: Again
) -> None:
    """What was covered and what was not."""
    counts = found.summary
    runs, blocks = counts.get("runs", 0), len(session.program.blocks)
    ran = blocks - len(found.missed or ()) if found.missed is not None else 0
    failures = len(confirmed.failures) + len(confirmed.outputs)
    findings = len(confirmed.groups) + len(confirmed.after_crashes) + failures
    if findings:
        parts = [
            f'{amount(len(confirmed.groups) + len(confirmed.after_crashes), "group")} on {amount(confirmed.checked, "input")}'
        ]
        parts += [f'{amount(failures, "failure")} after power cuts'] if failures else []
        printer.line(f'{" and ".join(parts)}, all confirmed by hippo; {amount(runs, "run")}')
    else:
        printer.line(
            f'no durability bug on {amount(runs, "run")}; this is no proof: {amount(blocks - ran, "block")} never ran'
        )
    printer.line(f'{ran:,} of {amount(blocks, "block")} ran (the given inputs: {found.given_blocks:,})')
    if options.crashes and counts:
        left = counts["left"]
        if counts["large"]:
            printer.line(
                f'{amount(counts["large"], "crash point")} with more than 4,096 lines, or with more than 512 contents of a line: '
                "not all their images were tried"
            )
        if not counts["images"]:
            printer.line("no image of a power cut was tried")
        whole = "all tried" if not left else f"{left:,} of these points or recoveries not tried whole; raise --time"
        printer.line(
            f'crashes: {images_in_words(counts["images"])} of {amount(counts["points"], "crash point")}: {amount(counts["behaviours"], "behaviour")}, {whole}'
        )
    if confirmed.refused:
        printer.line(f'{amount(confirmed.refused, "finding")} of the engine not confirmed by hippo, and not shown')
    print_examples(printer, again, found, confirmed)
    if options.corpus and (confirmed.groups or confirmed.after_crashes):
        printer.line(f"one repair for all of them: {again.repair(options.corpus)}")


def print_examples(printer: Printer, again: Again, found: Found, confirmed: Confirmed) -> None:
    """Inputs that are no finding, and of whose runs no power cut was tried: those that trap, that are long, or that leave a refused state."""
    refusing = confirmed.refusing.numbers if confirmed.refusing else None
    examples: tuple[tuple[Sized, list[int] | None, str], ...] = (
        (found.trapped, confirmed.trapping, "traps"),
        (found.long, min(found.long, key=len) if found.long else None, "is too long for the search"),
        (found.refused, refusing, "leaves a state that the next run refuses though nothing is lost"),
    )
    for inputs, shortest, what in examples:
        if shortest is not None:
            printer.line(
                f'the run of {amount(len(inputs), "kept input")} {what}, for example of {again.words(shortest)}'
            )


def print_missed(printer: Printer, session: Session, found: Found) -> None:
    """The places of the blocks that never ran, each line once."""
    blocks = list(session.program.blocks)
    places: dict[str, Place | None] = {}
    for number in sorted(found.missed or ()):
        function, label = blocks[number]
        count = len(session.program.blocks[(function, label)].instructions)
        sites = ((function, label, index) for index in range(count))
        place = next((place for site in sites for place in session.places.of(site)), None)
        places.setdefault(show_place(place) if place else f"@{function}:{label}", place)
    for text in places:
        printer.line(f"never ran: {text}")
