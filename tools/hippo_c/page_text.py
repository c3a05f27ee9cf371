"""Texts as they stand in a page."""
from __future__ import annotations

import html
from typing import Any

from .letters import shown


def escaped(text: str) -> str:
    """A text as it stands in an element or an attribute."""
    return html.escape(shown(text))


def where(place: dict[str, Any] | None) -> str:
    """A place as FILE:LINE."""
    return f'{place["file"]}:{place["line"]}' if place else "a place that is not in the C"
