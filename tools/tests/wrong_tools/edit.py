"""An edit of a tool."""
from __future__ import annotations

from typing import NamedTuple


class Edit(NamedTuple):
    """A wrong tool: what it does, the text of a file that changes, and the test that must see it.

    `old` stands once in the file, whose path is that from the top. `test` is the name of one test below tools/tests."""

    name: str
    what: str
    file: str
    old: str
    new: str
    test: str
