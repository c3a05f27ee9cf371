"""The sources of objects that `hippo-c cc` made, for the names, the lines and the suggestions of an answer."""
from __future__ import annotations

import hashlib
import os

from lowering.commands import Failure
from lowering.objects import is_object, units_of

from .trouble import Trouble


class Objects:
    """The sources of the objects and archives among some files, with the arguments of clang of each.

    `changed` has the sources that are other ones now: their lines are not those of the object."""

    def __init__(self, files: list[str]) -> None:
        self.words: dict[str, list[str]] = {}
        self.changed: list[str] = []
        for file in filter(is_object, files):
            try:
                units = units_of(file)
            except Failure as failure:
                raise Trouble(str(failure), "make clean; make CC='hippo-c cc'") from None
            for unit in units:
                here = unit.folder == os.getcwd()  # then the places of the bitcode are relative too
                source = unit.source if here else os.path.join(unit.folder, unit.source)
                if digest_of(source) == unit.digest:
                    self.words[source] = unit.words
                else:
                    self.changed.append(f"{source} is not as it was when {unit.name} was compiled: make that again")


def digest_of(path: str) -> str:
    """The digest of a file; nothing if it is not there."""
    try:
        with open(path, "rb") as file:
            return hashlib.sha256(file.read()).hexdigest()
    except OSError:
        return ""
