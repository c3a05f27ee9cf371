"""The function that a place in C stands in, as clang parsed it."""
from __future__ import annotations

from typing import TYPE_CHECKING

from .parsing import parsed
from .places import Place
from .syntax import Tree

if TYPE_CHECKING:
    from .session import Session


def tree_of(session: Session, place: Place) -> Tree | None:
    """The definition of the function that a place is in."""
    units = session.request.sources()
    units.sort(key=lambda file: file != place.file)
    for unit in units:
        clang = (f"-I{session.names.include}", *session.request.clang_of(unit))
        for tree in parsed(unit, clang).named(place.function):
            offset = tree.offset(place.line, place.column)
            if tree.file == place.file and tree.function.begin <= offset < tree.function.end:
                return tree
    return None
