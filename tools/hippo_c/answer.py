"""What a check found, as plain data: the one source of JSON, SARIF and the page."""
from typing import Any

from . import about
from .coverage import Coverage, united
from .diagnostics import helper_of, message_of, object_of, warnings_of
from .by_file import files_of
from .fixes import Suggestion
from .letters import shown
from .places import Place
from .program import show_site
from .reports import Group
from .session import Checked, Session
from .suggesting import Suggestions
from .traps import meaning_of
from .unsupported import UNSUPPORTED

FORMAT = 1
ABOUT = "The answer of hippo in another form, which hippo-c made; hippo-c is not proved."


def answer_of(session: Session, results: list[Checked], found: Suggestions | None) -> dict[str, Any]:
    """The whole answer, of groups that have their fingerprints; each key is described in docs/HIPPO_C.md."""
    return {
        "format": FORMAT,
        "about": ABOUT,
        "version": about.version(),
        "program": about.program(),
        "files": session.request.files,
        "clang": session.request.clang,
        "suppressions": [
            {"place": place_of(place), "message": message}
            for place, message in (session.suppressions.said if session.suppressions else ())
        ],
        "lines": (lines := united(checked.coverage for checked in results)) and lines_of(lines),
        "groups_of_files": files_of(session, results),
        "inputs": [input_of(session, checked, found) for checked in results],
    }


def input_of(session: Session, checked: Checked, found: Suggestions | None) -> dict[str, Any]:
    """What was found on one input."""
    trace, coverage = checked.trace, checked.coverage
    return {
        "numbers": checked.numbers,
        "ended": checked.ended,
        "reports": checked.reports,
        "stores": trace.stores,
        "asserts": trace.asserts,
        "flushes": trace.flushes,
        "fences": trace.fences,
        "lines": coverage and lines_of(coverage),
        "left_out": {"groups": checked.left_out[0], "reports": checked.left_out[1]},
        "warnings": warnings_of(session, checked),
        "trap": trap_of(session, checked),
        "groups": [group_of(session, checked, group, found) for group in checked.groups],
        "declared": [
            {
                "place": place_of(declared.place),
                "reports": declared.reports,
                "groups": [declared_group(session, checked, group) for group in declared.groups],
            }
            for declared in checked.declared
        ],
        "suppressed": [
            {
                "place": place_of(item.by.place),
                "reason": shown(item.by.reason),
                "by": item.by.kind,
                "reports": item.reports,
                "groups": [declared_group(session, checked, group) for group in item.groups],
            }
            for item in checked.suppressed
        ],
    }


def lines_of(coverage: Coverage) -> dict[str, Any]:
    """How many lines ran, of how many, and those that did not, by files."""
    ran, lines, whole = coverage.counts
    return {"ran": ran, "all": lines, "whole": whole, "not_run": coverage.missed()}


def declared_group(session: Session, checked: Checked, group: Group) -> dict[str, Any]:
    """A group that the program leaves out, which has neither a fingerprint nor a suggestion."""
    return {
        key: value
        for key, value in group_of(session, checked, group, None).items()
        if key not in ("fingerprint", "suggestion")
    }


def place_of(place: Place | None) -> dict[str, Any] | None:
    """A place; line and column count from 1, columns in bytes."""
    if place is None:
        return None
    return {
        "file": place.file,
        "line": place.line,
        "column": place.column,
        "function": place.function,
        "exact": place.exact,
    }


def group_of(session: Session, checked: Checked, group: Group, found: Suggestions | None) -> dict[str, Any]:
    """A group of equal reports; numbers of entries are those of the first one."""
    name, size = object_of(session, checked, group)
    places = session.places.along(group.path)
    flush = session.helpers.place((group.flush,)) if group.flush else None
    suggestion = found.of(group) if found else None
    return {
        "kind": group.missing,
        "reports": group.count,
        "message": shown(message_of(session, checked, group)),
        "object": name,
        "size": size,
        "by": helper_of(session, group).removeprefix(" by '").removesuffix("'"),
        "store": place_of(places[0] if places else None),
        "calls": [place_of(place) for place in places[1:]],
        "flush": place_of(flush),
        "flush_note": flush_note_of(checked, group),
        "check": place_of(session.check_place(checked, group.check)),
        "at_end": group.check == checked.trace.entries,
        "entry": group.entry,
        "check_entry": group.check,
        "fingerprint": group.fingerprint,
        "address": checked.trace.wanted[group.entry][0],
        "sites": list(map(show_site, group.path)),
        "suggestion": suggestion and suggestion_of(suggestion, not session.request.expand),
    }


def flush_note_of(checked: Checked, group: Group) -> dict[str, Any] | None:
    """What the first flush after the store does wrong."""
    note = checked.flush_notes.get(group.entry)
    return note and {
        "place": place_of(note.place),
        "message": shown(note.message),
        "covered": note.covered,
        "of": note.object.size,
        "object": note.object.name,
    }


def suggestion_of(suggestion: Suggestion, has_edits: bool) -> dict[str, Any]:
    """A suggestion, on demand with its edits; columns count bytes, and an edit replaces what is between its places by its text."""
    regions = suggestion.additions.regions() if suggestion.additions and has_edits else ()
    edits = [
        {"file": file, "line": line, "column": column, "end_line": end_line, "end_column": end_column, "text": text}
        for file, (line, column), (end_line, end_column), text in regions
    ]
    return {
        "place": place_of(suggestion.place),
        "text": shown(suggestion.text),
        "statements": suggestion.statements,
        "by_hand": suggestion.additions is None,
        "reason": shown(suggestion.reason),
        "edits": edits,
    }


def trap_of(session: Session, checked: Checked) -> dict[str, Any] | None:
    """Where a run trapped; no place if none was found."""
    if not checked.ended.startswith("trap"):
        return None
    kind = UNSUPPORTED if checked.trap and checked.trap.unsupported else checked.ended.split(" ")[1]
    places = session.places.along(checked.trap.path) if checked.trap else []
    return {
        "kind": kind,
        "meaning": meaning_of(kind, checked.trap),
        "place": place_of(places[0] if places else None),
        "calls": [place_of(place) for place in places[1:]],
    }
