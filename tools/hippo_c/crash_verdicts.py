"""The images of power cuts by the engine of explore: all of them where that ends in time, and hippo confirms each failure."""
from __future__ import annotations

import argparse

from . import crash_page
from .again import Again
from .confirming import Confirmed, Confirming
from .diagnostics import Printer, amount, images_in_words
from .explore_answers import print_failure, print_outputs
from .explore_options import words_of
from .exploring import check_engine, run_engine
from .findings import Found
from .native import Engine
from .session import Session

NONE_TRIED = (
    "the next run fails from what this run leaves, although nothing is lost: no power cut is needed, so none was tried"
)


def try_images(options: argparse.Namespace, session: Session, printer: Printer) -> int:
    """Tries the images that crashes may leave: 0 if no run fails, 1 if one does or loses an operation, 2 if none was tried."""
    numbers = session.request.inputs[0]
    session.progress.say("building the engine")
    engine = Engine(session.program, session.new_folder(), tuple(options.recover))
    check_engine(session, engine, numbers)
    words = words_of(options, None)
    if session.request.limit is not None:
        words += ["--limit", str(session.request.limit)]
    found, interrupted = run_engine(session, engine, [numbers], words, options)
    session.progress.say("confirming")
    found.reports = {}
    confirmed = Confirming(session, options.status).answer_for(found, [])
    session.progress.wipe()
    again = Again(options, session)
    for failure in confirmed.failures:
        print_failure(printer, session, failure, again)
    for outputs in confirmed.outputs:
        print_outputs(printer, session, outputs, again)
    print_verdict(printer, found, confirmed)
    crash_page.write(options, session, found, confirmed)
    if interrupted or confirmed.interrupted:
        return 130
    if confirmed.failures or confirmed.outputs:
        return 1
    return 0 if found.summary.get("behaviours") else 2


def print_verdict(printer: Printer, found: Found, confirmed: Confirmed) -> None:
    """How many images were tried, and how many behaviours they are."""
    counts = found.summary
    if found.refused:
        printer.line(NONE_TRIED)
    elif not counts.get("behaviours"):
        printer.line("no image was tried: the time ended before; raise --time")
    else:
        whole = "all " if not counts["left"] else ""
        left = "" if whole else f', {counts["left"]:,} of the points or recoveries not tried whole; raise --time'
        of_all = "" if counts["points"] == counts["all_points"] else f'{counts["points"]:,} of '
        points = f'{of_all}{amount(counts["all_points"], "crash point")}'
        printer.line(
            f'{whole}{images_in_words(counts["images"])} of {points}: {amount(counts["behaviours"], "behaviour")}{left}; '
            f'{counts["failing"]:,} fail, by {amount(len(confirmed.failures), "cause")}'
        )
    if confirmed.outputs:
        printer.line(f'{amount(len(confirmed.outputs), "operation")} lost or half done after a power cut')
    if confirmed.refused:
        printer.line(f'{amount(confirmed.refused, "failure")} of the engine not confirmed by hippo, and not shown')
