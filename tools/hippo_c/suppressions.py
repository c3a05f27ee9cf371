"""Reports that the source itself leaves out, each with a reason: by a comment at a statement, or by `PERSISTENT_SCRATCH` at a declaration.

A comment is for the one store of its statement; a declaration is for the stores whose bytes all lie in its object. Everything else is reported."""
from __future__ import annotations

import os
import re
from collections.abc import Iterable, Iterator
from typing import TYPE_CHECKING, NamedTuple

from lowering.languages import is_source

from .declared import report_of, stores_of
from .marks import Mark, marks_of, starts_of
from .paths import Path
from .places import Place, is_users
from .reports import Group, grouped, joined
from .scratch import Scratch, Scratches, shortest
from .sources import bytes_of, expanded
from .syntax import CALLS, RANGES
from .trees import tree_of
from .trouble import Trouble

if TYPE_CHECKING:
    from .session import Checked, Session


SIGNS = (b"hippo:", b"PERSISTENT_SCRATCH")
INCLUDE = re.compile(rb'^[ \t]*(?:#|%:)[ \t]*(?:include|include_next|import)[ \t]*(?:[<"]([^>"\n]+)[>"])?', re.M)
# Arguments of clang before a folder or a header.
NAMING = re.compile(r"(-I|-isystem|-iquote|-idirafter|-include)(.*)")


class Suppression(NamedTuple):
    """What the source says at a place: the reason, and the kind, `comment` or `scratch`."""

    place: Place
    reason: str
    kind: str


class Suppressed(NamedTuple):
    """Groups of reports that a suppression leaves out."""

    by: Suppression
    groups: list[Group]

    @property
    def reports(self) -> int:
        """The number of reports."""
        return sum(group.count for group in self.groups)


class Suppressions:
    """The suppressions of a program, and what they leave out."""

    def __init__(self, session: Session) -> None:
        self.session = session
        self.files = {os.path.realpath(file): file for file in session.request.sources()}
        self.by_path: dict[str, Suppression | None] = {}
        self.comments: list[Suppression] = []
        self.wrong: list[tuple[Place, str]] = []
        self.marks: dict[Suppression, Mark] = {}
        self.said: list[tuple[Place, str]] = []
        for path in sorted(session.names.compiled_files()):
            file = self.files.get(path, shortest(path))
            if is_users(file):
                self.read(file)
        self.scratches = Scratches(session.names)

    def read(self, file: str) -> None:
        """The comments of a file."""
        for mark in marks_of(bytes_of(file)):
            place = Place(file, mark.line, mark.column, "")
            if "has no reason" in mark.wrong:
                raise Trouble(f"{place}: {mark.wrong}")
            if mark.wrong:
                self.wrong.append((place, mark.wrong))
            else:
                suppression = Suppression(place, mark.reason, "comment")
                self.comments.append(suppression)
                self.marks[suppression] = mark

    @property
    def all(self) -> list[Suppression]:
        """All suppressions, by their places."""
        return sorted([*self.comments, *map(of_scratch, self.scratches.all)])

    def split(self, reported: list[str], trace: str) -> tuple[list[str], list[Suppressed]]:
        """The lines of reports that no suppression leaves out, and those that one does."""
        kept: list[str] = []
        found: dict[Suppression, list[str]] = {}
        wanted = {report_of(line).entry for line in reported} if self.scratches.by_node else set()
        stores = stores_of(trace, wanted) if wanted else {}
        for line in reported:
            report = report_of(line)
            by = self.of_path(report.path)
            if by is None and report.entry in stores:
                scratch = self.scratches.of(*stores[report.entry])
                by = of_scratch(scratch) if scratch else None
            if by:
                found.setdefault(by, []).append(line)
            else:
                kept.append(line)
        return kept, [Suppressed(by, self.groups(lines)) for by, lines in sorted(found.items())]

    def groups(self, taken: list[str]) -> list[Group]:
        """The groups of reports that are left out."""
        return joined(grouped(taken, self.session.paths), lambda site: bool(self.session.places.of(site)))

    def of_path(self, text: str) -> Suppression | None:
        """The comment in whose statement the store of a path stands: the innermost place of the user's counts."""
        if not self.comments:
            return None
        if text not in self.by_path:
            place = self.session.places.first(self.session.paths.read(text))
            self.by_path[text] = self.of_place(place) if place else None
        return self.by_path[text]

    def of_place(self, place: Place) -> Suppression | None:
        """The comment in whose statement a place lies."""
        if not place.exact or not place.column:
            return None
        path = os.path.realpath(place.file)
        starts = starts_of(bytes_of(place.file))
        if not 0 < place.line <= len(starts):
            return None
        offset = starts[place.line - 1] + place.column - 1
        for suppression, mark in self.marks.items():
            if mark.covers(offset) and os.path.realpath(suppression.place.file) == path:
                return suppression
        return None

    def settle(self, results: Iterable[Checked]) -> list[tuple[Place, str]]:
        """Gives the reports of a comment whose statement has several stores back to the results. What is wrong with the suppressions,
        with their places: those, and the ones that leave nothing out."""
        results = list(results)
        wrong = list(self.wrong)
        used: dict[Suppression, set[tuple[int, int]]] = {}
        for checked in results:
            for item in checked.suppressed:
                places = used.setdefault(item.by, set())
                places.update(place[1:3] for group in item.groups if (place := self.session.places.first(group.path)))
        for by in self.all:
            if by not in used:
                wrong.append((by.place, "this suppression leaves out nothing: no store that it names is reported"))
            elif by.kind == "comment" and (len(used[by]) > 1 or self.stores_of_macro(by, used[by]) > 1):
                give_back(results, by)
                wrong.append(
                    (
                        by.place,
                        "this suppression leaves out nothing: its statement has several stores; "
                        "put the store into a statement of its own",
                    )
                )
        self.said = sorted(wrong)
        return self.said

    def stores_of_macro(self, by: Suppression, places: set[tuple[int, int]]) -> int:
        """The number of stores that a macro makes at the one place of a store; 1 if it is no macro."""
        ((line, column),) = places
        paths: list[Path] = []
        place = Place(by.place.file, line, column, "")
        for text, known in self.by_path.items():
            if known == by:
                paths.append(self.session.paths.read(text))
        first = next((found for path in paths if (found := self.session.places.first(path))), place)
        tree = tree_of(self.session, first)
        if tree is None:
            return 1
        offset = tree.offset(line, column)
        inside = [node for node in tree.function.walk() if node.from_macro and node.begin == offset]
        calls = [node for node in inside if node.kind in CALLS and node.inner]
        named = [part.name for node in calls for part in node.inner[0].walk() if part.name in RANGES]
        return max(sum(node.stores for node in inside) + len(named), 1)


def of_scratch(scratch: Scratch) -> Suppression:
    """A declaration as a suppression."""
    return Suppression(scratch.place, scratch.reason, "scratch")


def give_back(results: Iterable[Checked], by: Suppression) -> None:
    """Puts the groups of a suppression among those that are shown."""
    for checked in results:
        back = [group for item in checked.suppressed if item.by == by for group in item.groups]
        checked.suppressed = [item for item in checked.suppressed if item.by != by]
        checked.groups = sorted([*checked.groups, *back], key=lambda group: (group.entry, group.check))


def are_mentioned(session: Session) -> bool:
    """Whether a file that clang may have read for the program has the words of a suppression. Only then all are looked for."""
    for file in session.request.files:
        if not is_source(file):
            return True
        folders: list[str] = []
        waiting = [file]
        words = session.request.clang_of(file)
        for word, following in zip(words, [*words[1:], ""]):
            if named := NAMING.fullmatch(word):
                (waiting if named[1] == "-include" else folders).append(named[2] or following)
        if any(is_mentioned(path) for path in reachable(waiting, folders)):
            return True
    return False


def reachable(waiting: list[str], folders: list[str]) -> Iterator[str]:
    """The user's files that some files include, under any condition; an empty name where a macro names one."""
    seen: set[str] = set()
    while waiting:
        path = waiting.pop()
        if path in seen or not is_users(path) or not os.path.isfile(path):
            continue
        seen.add(path)
        yield path
        for found in INCLUDE.finditer(content_of(path)):
            if not found[1]:
                yield ""
            name = os.fsdecode(found[1] or b"")
            waiting += [os.path.join(folder, name) for folder in (os.path.dirname(path), *folders)]


def is_mentioned(path: str) -> bool:
    """Whether a file has the words of a suppression; one that is not known may have them."""
    return not path or any(sign in content_of(path) for sign in SIGNS)


def content_of(path: str) -> bytes:
    """The bytes of a file, or of what stands in its place."""
    if os.path.abspath(path) in expanded:
        return expanded[os.path.abspath(path)]
    try:
        with open(path, "rb") as file:
            return file.read()
    except OSError:
        return b""
