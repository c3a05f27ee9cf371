"""The answer as one page for a browser: the C with the reports at their lines, pictures of cache lines, power cuts, and the edits."""
from __future__ import annotations

import base64
import hashlib
import json
import os
from itertools import groupby
from typing import Any

from lowering.languages import is_source

from .diagnostics import amount
from .letters import shown
from .page_source import Sources
from .page_text import escaped, where
from .united import united

FOLDER = os.path.dirname(os.path.abspath(__file__))


def page_of(answer: dict[str, Any], histories: list[list[dict[str, Any]]], crashes: str = "", diff: str = "") -> str:
    """The page; it needs no network and no other file. `crashes` is the HTML of what power cuts show, `diff` that of all edits."""
    groups = united(answer, histories)
    files = sorted(
        {place["file"] for group in groups for place in places_in(group)}
        | {file for file in answer["files"] if is_source(file)}
    )
    numbers = {file: number for number, file in enumerate(files)}
    sources = Sources(groups, (answer["lines"] or {}).get("not_run", {}))
    parts = {
        "title": escaped(f'hippo-c: {", ".join(answer["files"])}'),
        "style": part("page.css"),
        "script": part("page.js"),
        "tabs": tabs_of(groups, crashes, diff),
        "summary": summary(answer),
        "list": list_of(answer, groups),
        "suppressed": suppressed_of(answer),
        "sources": "".join(sources.section(file, numbers[file]) for file in files),
        "crashes": crashes or '<p class="hint">Nothing: this command cut no power.</p>',
        "diff": diff_in_html(diff),
        "about": escaped(answer["about"]),
        "data": data_of(groups, numbers),
        "policy": policy(part("page.css"), part("page.js")),
    }
    return part("page.html").format(**parts)


def tabs_of(groups: list[dict[str, Any]], crashes: str, diff: str) -> str:
    """The buttons of the tabs that have something; the findings are chosen if there are any, and otherwise what power cuts show."""
    hunks = sum(line.startswith("@@ ") for line in diff.split("\n"))
    there = [("findings", f"Findings <b>{len(groups):,}</b>")]
    there += [("crashes", "Crashes")] if crashes else []
    there += [("fixes", f"Fixes <b>{hunks:,}</b>")] if diff else []
    chosen = "crashes" if crashes and not groups else "findings"
    return "".join(
        f'<button role="tab" id="tab-{name}" aria-controls="{name}" aria-selected="{str(name == chosen).lower()}">{title}</button>'
        for name, title in there
    )


def data_of(groups: list[dict[str, Any]], numbers: dict[str, int]) -> str:
    """The data of the script, with no letter that ends or opens an element."""
    data = {"groups": with_shown_names(groups), "files": {shown(file): number for file, number in numbers.items()}}
    return json.dumps(data).replace("<", "\\u003c")


def with_shown_names(data: Any) -> Any:
    """A copy of data in which the names of files in places are those that are shown."""
    if isinstance(data, list):
        return list(map(with_shown_names, data))
    if not isinstance(data, dict):
        return data
    return {key: shown(value) if key == "file" else with_shown_names(value) for key, value in data.items()}


def policy(style: str, script: str) -> str:
    """What a browser may load for the page and run in it: this style and this script, and nothing from elsewhere."""
    marks = [base64.b64encode(hashlib.sha256(part.encode()).digest()).decode() for part in (script, style)]
    return f"default-src 'none'; script-src 'sha256-{marks[0]}'; style-src 'sha256-{marks[1]}'; base-uri 'none'; form-action 'none'"


def part(name: str) -> str:
    """The text of a file beside this one, from which the page is made."""
    with open(os.path.join(FOLDER, name), encoding="utf-8") as file:
        return file.read()


def places_in(group: dict[str, Any]) -> list[dict[str, Any]]:
    """The places in the user's C that a group names."""
    suggestion = group["suggestion"] and group["suggestion"]["place"]
    note = group["flush_note"] and group["flush_note"]["place"]
    return [
        place for place in (group["store"], group["flush"], group["check"], suggestion, note, *group["calls"]) if place
    ]


def summary(answer: dict[str, Any]) -> str:
    """The first lines: counts for each input, and warnings."""
    rows = []
    for number, item in enumerate(answer["inputs"], 1):
        which = f"Input {number}: " if len(answer["inputs"]) > 1 else ""
        lines = item["lines"]
        ran = f', {lines["ran"]:,} of {amount(lines["all"], "line")} of C ran' if lines else ""
        known = f'; {amount(item["left_out"]["reports"], "report")} in {amount(item["left_out"]["groups"], "group")} known and left out'
        known = known if item["left_out"]["groups"] else ""
        rows.append(
            f'<p>{which}<b>{amount(item["reports"], "report")}</b> in {amount(len(item["groups"]), "group")}{known}; '
            f'{amount(item["stores"], "store")} to persistent memory, {amount(item["asserts"], "assert")}{ran}; '
            f'{escaped(item["ended"])}</p>'
        )
        rows += [f'<p class="warning">{escaped(text)}</p>' for text in item["warnings"]]
        if item["trap"]:
            place = item["trap"]["place"]
            at = f" at {where(place)}" if place else ""
            rows.append(
                f'<p class="warning">The run ended with a trap{escaped(at)}: {escaped(item["trap"]["meaning"])}</p>'
            )
    rows += [
        f'<p class="warning">{escaped(where(item["place"]))}: {escaped(item["message"])}</p>'
        for item in answer["suppressions"]
    ]
    return "".join(rows)


def list_of(answer: dict[str, Any], groups: list[dict[str, Any]]) -> str:
    """The groups in the order of their first stores; groups of one file that follow one another have one heading."""
    flushes = {item["file"]: item["flushes"] for item in answer["groups_of_files"]}
    parts = []
    numbered = enumerate(groups)
    for file, here in groupby(numbered, key=file_of):
        why = ", which has no flush" if flushes.get(file) == 0 else ""
        rows = list(here)
        title = f"{file or 'no file of yours'}: {amount(len(rows), 'group')}{why}"
        parts.append(f'<li class="file">{escaped(title)}</li>')
        parts += [row(number, group) for number, group in rows]
    return "".join(parts)


def file_of(numbered: tuple[int, dict[str, Any]]) -> str:
    """The file of a group's store."""
    store = numbered[1]["store"]
    return str(store["file"]) if store else ""


def row(number: int, group: dict[str, Any]) -> str:
    """A group in the list."""
    place = group["store"]
    at = f'{place["function"]}:{place["line"]}' if place else "no line"
    inputs = f' · {amount(len(group["inputs"]), "input")}' if len(group["inputs"]) > 1 else ""
    return (
        f'<li id="g{number}"><button data-group="{number}"><span class="kind {group["kind"]}">{group["kind"]}</span>'
        f'<span class="where">{escaped(at)}</span><span class="count">{group["reports"]:,}{inputs}</span>'
        f'<span class="object">{escaped(group["object"])}</span></button></li>'
    )


def suppressed_of(answer: dict[str, Any]) -> str:
    """What the source suppresses, with its reasons."""
    rows = []
    for item in answer["inputs"]:
        for one in item["suppressed"]:
            text = f'<li>{escaped(where(one["place"]))}: {escaped(one["reason"])} ({amount(one["reports"], "report")})</li>'
            rows += [text] if text not in rows else []
    if not rows:
        return ""
    return f'<details class="suppressed"><summary>Suppressed in the source: {len(rows)}</summary><ul>{"".join(rows)}</ul></details>'


def diff_in_html(diff: str) -> str:
    """A unified diff with a class for each sort of line."""
    kinds = {"+": "added", "-": "removed", "@": "hunk"}
    return "".join(
        f'<span class="{kinds.get(line[:1], "")}">{escaped(line)}\n</span>'
        for line in diff.removesuffix("\n").split("\n")
    )
