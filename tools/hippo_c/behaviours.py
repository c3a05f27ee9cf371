"""The behaviours of crash points, as data and as a part of the page: an image, what the next run reads of it, and how that run ends."""
from __future__ import annotations

from typing import Any

from .answer import place_of
from .confirming import Confirmed
from .diagnostics import amount, images_in_words
from .explore_answers import ending_in_words
from .findings import Behaviour
from .following import Crash
from .page_text import escaped
from .program import REGION_BASE
from .session import Session

# At most this many behaviours are asked of the engine.
MOST_BEHAVIOURS = 200
LINE = 64


def crash_points_of(session: Session, confirmed: Confirmed) -> list[dict[str, Any]]:
    """The crash points with the behaviours that hippo confirmed, in the order of the inputs and of their entries."""
    points: dict[tuple[object, ...], dict[str, Any]] = {}
    for behaviour, crashes in confirmed.behaviours:
        key = (tuple(behaviour.numbers), crashes[0].entry)
        point = points.setdefault(
            key,
            {
                "numbers": behaviour.numbers,
                "entry": crashes[0].entry,
                "place": place_of(session.places.first(behaviour.at)),
                "images": behaviour.images,
                "behaviours": [],
            },
        )
        point["behaviours"].append(behaviour_of(session, behaviour, crashes[0]))
    return list(points.values())


def behaviour_of(session: Session, behaviour: Behaviour, crash: Crash) -> dict[str, Any]:
    """A behaviour: the lines of its image that have more than their durable stores, what the run reads of lines that differ, and its end."""
    places = session.places.along(behaviour.path)
    return {
        "picks": [
            {"line": line, "stores": upto, "object": session.names.of(REGION_BASE + line * LINE)}
            for line, upto in crash.picks
        ],
        "reads": [
            {"object": session.names.of(read.address), "size": read.size, "value": read.value}
            for read in behaviour.reads
        ],
        "ended": behaviour.ended,
        "meaning": ending_in_words(behaviour.ended) if behaviour.is_failing else behaviour.ended,
        "fails": behaviour.is_failing,
        "trap": place_of(places[0] if places else None),
    }


def points_in_html(points: list[dict[str, Any]]) -> str:
    """The crash points as a part of the page: each opens to the table of its behaviours."""
    if not points:
        return ""
    return f'<h3>Crash points</h3>{"".join(map(point_in_html, points))}'


def point_in_html(point: dict[str, Any]) -> str:
    """A crash point."""
    place = point["place"]
    where = (
        f'{place["file"]}:{place["line"]}'
        if place
        else "the start of the run"
        if point["entry"] <= 2
        else "a place that is not in the C"
    )
    failing = sum(behaviour["fails"] for behaviour in point["behaviours"])
    numbers = " ".join(map(str, point["numbers"]))
    head = (
        f'after entry {point["entry"]}, {where}: {images_in_words(point["images"])}, {amount(len(point["behaviours"]), "behaviour")}'
        + (f", {failing:,} fail" if failing else "")
        + (f", on input {numbers}" if numbers else "")
    )
    rows = "".join(map(row_in_html, point["behaviours"]))
    return (
        f'<details class="point"{" open" if failing else ""}><summary>{escaped(head)}</summary><table><tr><th>An image</th>'
        f"<th>The next run reads</th><th>It ends</th></tr>{rows}</table></details>"
    )


def row_in_html(behaviour: dict[str, Any]) -> str:
    """A behaviour as a row of the table."""
    image = [f"line of '{pick['object']}' with {amount(pick['stores'], 'store')}" for pick in behaviour["picks"]] or [
        "only what is durable"
    ]
    reads = [f"{read['object']} = {signed(read['value'], read['size']):,}" for read in behaviour["reads"]] or [
        "nothing that may differ"
    ]
    trap = behaviour["trap"]
    end = behaviour["meaning"] + (f', {trap["file"]}:{trap["line"]}' if trap else "")
    cells = ["<br>".join(map(escaped, image)), "<br>".join(map(escaped, reads)), escaped(end)]
    return f'<tr{" class=fails" if behaviour["fails"] else ""}>{"".join(f"<td>{cell}</td>" for cell in cells)}</tr>'


def signed(value: int, size: int) -> int:
    """The number that these bytes are, with its sign if they are as many as an integer of C has."""
    return value - (1 << 8 * size) if size in (4, 8) and value >> (8 * size - 1) else value
