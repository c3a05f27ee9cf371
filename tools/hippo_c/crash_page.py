"""The page of crash: what a check of the run reports, what power cuts show, and what to add."""
from __future__ import annotations

import argparse

from . import fingerprints, flush_notes
from .again import Again
from .answer import answer_of
from .confirming import Confirmed
from .explore_forms import failures_in_html, of_power_cuts
from .findings import Found
from .history import histories_of
from .page import page_of
from .session import Session
from .suggesting import suggestions_for
from .trouble import Trouble
from .writing import output_file


def add_option(command: argparse.ArgumentParser) -> None:
    """The option that writes the page."""
    command.add_argument(
        "--html", metavar="FILE", help="write a page: what a check reports, what power cuts show, and what to add"
    )


def refuse(options: argparse.Namespace) -> None:
    """Refuses a page where hippo alone makes the runs."""
    if options.html:
        raise Trouble(
            "--html shows all images of a run that returns from main",
            "leave out --entries, --pick, --sample and --images",
        )


def write(options: argparse.Namespace, session: Session, found: Found, confirmed: Confirmed) -> None:
    """Writes the page if `--html` names a file."""
    if not options.html:
        return
    checked = session.check(session.request.inputs[0], "checked.trace")
    if session.suppressions:
        session.suppressions.settle([checked])
    flush_notes.give(session, [checked])
    fingerprints.give(session, [checked])
    suggestions = suggestions_for(session, [checked])
    cuts = of_power_cuts(session, found, confirmed, Again(options, session))
    answer = {**answer_of(session, [checked], suggestions), **cuts}
    page = page_of(answer, histories_of(session, [checked]), failures_in_html(answer), suggestions.additions.diff())
    session.progress.wipe()
    with output_file(options.html) as file:
        file.write(page.encode("utf-8", "replace"))
