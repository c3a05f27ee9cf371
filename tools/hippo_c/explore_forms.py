"""What explore found as plain data, as SARIF and as a page."""
from __future__ import annotations

import argparse
import copy
import json
from typing import Any

from . import fingerprints
from .again import Again
from .answer import answer_of, place_of
from .behaviours import crash_points_of, points_in_html
from .checking import write_text
from .confirming import Confirmed, ShownFailure, ShownOutputs
from .diagnostics import Printer, amount, images_in_words
from .explore_answers import ending_in_words, what_differs, what_fails
from .findings import Found, Report
from .following import Crash
from .history import histories_of
from .page import page_of
from .page_text import escaped, where
from .program import Site
from .sarif import RULES, location_of, sarif_of
from .session import Checked, Session

RULE = {
    "id": "power-cut",
    "name": "PowerCut",
    "shortDescription": {"text": "Power cut"},
    "fullDescription": {"text": "The run from what a power cut may leave fails."},
    "help": {"text": "The run from what a power cut may leave fails."},
    "defaultConfiguration": {"level": "error"},
}


def write_forms(
    options: argparse.Namespace, session: Session, found: Found, confirmed: Confirmed, printer: Printer, again: Again
) -> None:
    """Writes the answer in the requested forms."""
    if not (options.json or options.sarif or options.html):
        return
    results = results_of(confirmed)
    fingerprints.give(session, results)
    answer = {**answer_of(session, results, None), **of_power_cuts(session, found, confirmed, again)}
    if options.json:
        write_text(options.json, json.dumps(answer, indent=2) + "\n", printer)
    if options.sarif:
        write_text(options.sarif, json.dumps(sarif_with_failures(answer), indent=2) + "\n", printer)
    if options.html:
        page = page_of(answer, histories_of(session, results), failures_in_html(answer))
        write_text(options.html, page, printer)


def of_power_cuts(session: Session, found: Found, confirmed: Confirmed, again: Again) -> dict[str, Any]:
    """What power cuts showed, as plain data."""
    return {
        "failures": [failure_of(session, shown, again) for shown in confirmed.failures],
        "outputs": [outputs_of(session, shown, again) for shown in confirmed.outputs],
        "after_cuts": [after_cut_of(session, report, crashes, again) for report, crashes in confirmed.after_crashes],
        "crash_points": crash_points_of(session, confirmed),
        "covered": covered(session, found, confirmed),
    }


def results_of(confirmed: Confirmed) -> list[Checked]:
    """The checks of the shortest inputs, each with the groups that it is shown for."""
    results: dict[int, Checked] = {}
    for shown in confirmed.groups:
        checked = results.get(id(shown.checked))
        if checked is None:
            checked = results[id(shown.checked)] = copy.copy(shown.checked)
            checked.groups = []
        checked.groups.append(shown.group)
    return list(results.values())


def failure_of(session: Session, shown: ShownFailure, again: Again) -> dict[str, Any]:
    """A failure: the power cuts as hippo's `crash` takes them, where the last run ends, and the stores that its image lacks."""
    failure = shown.failure
    places = session.places.along(failure.path)
    return {
        "ended": failure.ended,
        "meaning": ending_in_words(failure.ended),
        "message": what_fails(session, shown),
        "lost_print": print_in(session, shown.lost_print),
        "numbers": failure.numbers,
        "level": failure.level,
        "place": place_of(session.places.first(failure.at)),
        "trap": place_of(places[0] if places else None),
        "calls": [place_of(place) for place in places[1:]],
        "cuts": cuts_of(shown.crashes),
        "lost": [
            {
                "object": session.names.of(lost.address),
                "size": lost.size,
                "place": place_of(session.places.first(lost.path)),
            }
            for lost in failure.lost
        ],
        "again": again.crash(failure, shown.crashes, failure.limit if failure.ended == "cut" else None),
    }


def print_in(session: Session, lost: tuple[int, Site] | None) -> dict[str, Any] | None:
    """The print that acknowledged what is lost: its number, and its place."""
    return {"number": lost[0], "place": place_of(session.places.first(lost[1:]))} if lost else None


def after_cut_of(session: Session, report: Report, crashes: list[Crash], again: Again) -> dict[str, Any]:
    """A report of a run after power cuts."""
    places = session.places.along(report.key[2])
    return {
        "kind": f"missing-{report.key[0]}",
        "place": place_of(places[0] if places else None),
        "calls": [place_of(place) for place in places[1:]],
        "numbers": report.numbers,
        "cuts": cuts_of(crashes),
        "again": again.crash(report, crashes, report.limit),
    }


def cuts_of(crashes: list[Crash]) -> list[dict[str, Any]]:
    """Power cuts as the words of `crash`."""
    return [{"entry": crash.entry, "picks": [list(pick) for pick in crash.picks]} for crash in crashes]


def outputs_of(session: Session, shown: ShownOutputs, again: Again) -> dict[str, Any]:
    """An operation that a power cut leaves half done or loses: the inputs, and what the runs print."""
    outputs = shown.outputs
    return {
        "acknowledged": outputs.is_acknowledged,
        "message": what_differs(session, shown),
        "lost_print": print_in(session, shown.lost_print),
        "operation": outputs.operation,
        "place": place_of(session.places.first(outputs.at)),
        "numbers": outputs.numbers,
        "resumed": outputs.resumed,
        "printed": shown.printed,
        "with": shown.wanted,
        "without": shown.wanted_without,
        "cuts": cuts_of(shown.crashes),
        "again": again.crash(outputs, shown.crashes, None),
    }


def covered(session: Session, found: Found, confirmed: Confirmed) -> dict[str, Any]:
    """What was covered."""
    counts = {
        name: found.summary.get(name, 0)
        for name in ("runs", "points", "images", "behaviours", "failing", "large", "left")
    }
    blocks = len(session.program.blocks)
    return {
        **counts,
        "blocks": blocks,
        "blocks_ran": blocks - len(found.missed) if found.missed is not None else 0,
        "given_blocks": found.given_blocks,
        "inputs_checked": confirmed.checked,
        "not_confirmed": confirmed.refused,
    }


def sarif_with_failures(answer: dict[str, Any]) -> dict[str, Any]:
    """The SARIF log of the groups, with a result for each finding after a power cut."""
    log = sarif_of(answer)
    run = log["runs"][0]
    run["tool"]["driver"]["rules"].append(RULE)
    for failure in answer["failures"]:
        related = [
            (failure["trap"], "the run from the image ends here"),
            *((lost["place"], f"this store to '{lost['object']}' is lost") for lost in failure["lost"]),
        ]
        run["results"].append(result_of(f'After a power cut here {failure["message"]}', failure, related))
    for outputs in answer["outputs"]:
        run["results"].append(result_of(f'After a power cut here {outputs["message"]}', outputs, []))
    for report in answer["after_cuts"]:
        calls = [(place, "called here") for place in report["calls"]]
        result = result_of("A store of the run after a power cut is not durable", report, calls)
        run["results"].append(
            {**result, "ruleId": report["kind"], "ruleIndex": list(RULES).index(report["kind"]), "level": "warning"}
        )
    return log


def result_of(text: str, finding: dict[str, Any], related: list[tuple[dict[str, Any] | None, str]]) -> dict[str, Any]:
    """A finding after a power cut as a result."""
    return {
        "ruleId": RULE["id"],
        "ruleIndex": len(RULES),
        "level": "error",
        "message": {"text": text},
        "locations": [location_of(finding["place"])] if finding["place"] else [],
        "relatedLocations": [
            {**location_of(place), "id": number, "message": {"text": what}}
            for number, (place, what) in enumerate(((place, what) for place, what in related if place), 1)
        ],
        "properties": {"input": finding["numbers"], "again": finding["again"]},
    }


def failures_in_html(answer: dict[str, Any]) -> str:
    """What power cuts show as a part of the page: the findings with the commands that show them again, and the behaviours of crash points."""
    rows = []
    for failure in answer["failures"]:
        lost = ", ".join(lost["object"] for lost in failure["lost"]) or "nothing"
        rows.append(
            row(
                failure,
                f'after a power cut here {failure["message"]}; the next run ends at {where(failure["trap"])}; lost: {lost}',
            )
        )
    for outputs in answer["outputs"]:
        rows.append(
            row(
                outputs,
                f'after a power cut here {outputs["message"]}; the next run prints {" ".join(outputs["printed"])}',
            )
        )
    rows += [
        row(report, f'a store of the run after a power cut is not durable: {report["kind"]}')
        for report in answer["after_cuts"]
    ]
    counts, points = answer["covered"], points_in_html(answer["crash_points"])
    if not rows and not points:
        return ""
    return (
        f'<section class="failures"><h2>Power cuts</h2><p>{images_in_words(counts["images"])} of {amount(counts["points"], "crash point")}: '
        f'{amount(counts["behaviours"], "behaviour")}</p><ul>{"".join(rows)}</ul>{points}</section>'
    )


def row(finding: dict[str, Any], text: str) -> str:
    """A finding after a power cut as an item of the list."""
    return f'<li><b>{escaped(where(finding["place"]))}</b>: {escaped(text)}<br><code>{escaped(finding["again"])}</code></li>'
