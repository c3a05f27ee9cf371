"""Which edits clang takes: what an edited file must include, and which edits have errors.

All edits are compiled together. Clang's errors name the lines, and so the edits, that have to go."""
from __future__ import annotations

import os
import re
import tempfile
from collections.abc import Iterable, Iterator
from typing import NamedTuple


from .clang import clang_for
from .edits import Additions
from .fixes import Suggestion
from .running import tool
from .session import Session
from .sources import bytes_of, overlay

ERROR = re.compile(r"^(?P<file>[^\n]+?):(?P<line>\d+):\d+: (?:fatal )?error: (?P<what>[^\n]*)$", re.M)
UNDECLARED = re.compile(
    r"(?:undeclared|implicitly declaring|implicit declaration of) (?:library )?function '(_mm_\w+|pmem_\w+)'"
)
# The header that declares a processor's flushes and fences.
INTRINSICS = "<immintrin.h>"
MOST_ROUNDS = 8


class Error(NamedTuple):
    """An error of clang: the file, the line, and what is wrong."""

    file: str
    line: int
    what: str


class Compiling:
    """The edits of some suggestions, and what clang says of them."""

    def __init__(self, session: Session, suggestions: list[Suggestion]) -> None:
        self.session, self.suggestions = session, suggestions
        self.files = session.request.sources()
        self.headers: dict[str, str] = {}
        self.without_edits: set[tuple[str, str]] | None = None

    def kept(self) -> Additions:
        """The edits that compile; the suggestions of all others lose theirs, with clang's reason."""
        for _ in range(MOST_ROUNDS):
            additions = self.together(self.suggestions)
            errors = self.errors_of(additions)
            if not errors:
                return additions
            if not self.include(errors) and not self.leave_out(additions, errors):
                break
        return self.one_by_one()

    def together(self, suggestions: Iterable[Suggestion]) -> Additions:
        """The edits of suggestions, with the headers that they need."""
        found = Additions()
        for suggestion in suggestions:
            if suggestion.additions:
                for file in set(self.headers) & set(suggestion.additions.sources):
                    suggestion.additions.include(file, self.headers[file])
                found.merge(suggestion.additions)
        return found

    def errors_of(self, additions: Additions) -> list[Error]:
        """The errors of the edited files that the files do not have without the edits."""
        errors = self.compiled(additions)
        if errors and self.without_edits is None:
            self.without_edits = {(error.file, error.what) for error in self.compiled(Additions())}
        known = self.without_edits or set()
        return [error for error in errors if (error.file, error.what) not in known]

    def compiled(self, additions: Additions) -> list[Error]:
        """The errors of the program's files with edits."""
        with tempfile.TemporaryDirectory(prefix="hippo-c-") as folder:
            edited = overlay(additions.edited(), folder)
            text = "".join(self.messages(edited, file) for file in self.files)
        return [
            Error(os.path.realpath(found["file"]), int(found["line"]), found["what"]) for found in ERROR.finditer(text)
        ]

    def messages(self, edited: list[str], file: str) -> str:
        """What clang says of a file, without `-w`, under which it makes no errors of warnings."""
        command = [
            *clang_for(file),
            "-fsyntax-only",
            "-ferror-limit=0",
            "-fno-caret-diagnostics",
            "-fno-color-diagnostics",
            "-Werror=implicit-function-declaration",
            f"-I{self.session.names.include}",
            *self.session.request.clang_of(file),
        ]
        ran = tool([*(word for word in command if word != "-w"), *edited, file])
        return ran.stderr.decode("utf-8", "surrogateescape")

    def include(self, errors: list[Error]) -> bool:
        """Notes the headers of the files that do not declare a flush or a fence; false if there is no new one."""
        before = dict(self.headers)
        additions = self.together(self.suggestions)
        by_path = {os.path.realpath(file): file for file in additions.sources}
        for error in errors:
            name, file = UNDECLARED.search(error.what), by_path.get(error.file)
            if name and file:
                header = INTRINSICS if name[1].startswith("_mm_") else self.library()
                if self.headers.get(file) in (None, INTRINSICS):
                    self.headers[file] = header
        return self.headers != before

    def library(self) -> str:
        """The header of `pmem_flush`: libpmem's, if a file of the program has it."""
        return "<libpmem.h>" if any(b"<libpmem.h>" in bytes_of(file) for file in self.files) else "<hippo.h>"

    def leave_out(self, additions: Additions, errors: list[Error]) -> bool:
        """Takes the edits from the suggestions whose lines have errors; false if there are none."""
        found = False
        for file, line, what in errors:
            spans = set(spans_at(additions, file, line))
            for suggestion in self.suggestions:
                if suggestion.additions and spans & set(spans_of(suggestion.additions, file)):
                    drop(suggestion, what)
                    found = True
        return found

    def one_by_one(self) -> Additions:
        """The edits that compile, each tried by itself: an error may stand in another line than the edit that makes it."""
        kept = []
        for suggestion in self.suggestions:
            if suggestion.additions:
                errors = self.errors_of(self.together([suggestion]))
                if errors:
                    drop(suggestion, errors[0].what)
                else:
                    kept.append(suggestion)
        return self.together(kept)


def drop(suggestion: Suggestion, what: str) -> None:
    """Takes the edit from a suggestion that clang does not compile."""
    suggestion.additions = None
    suggestion.reason = f"clang says: {what}"
    suggestion.text = "flush what this statement stores, by the address of the object around it"
    suggestion.statements = []


def spans_at(additions: Additions, path: str, line: int) -> Iterator[tuple[int, int]]:
    """The edits that have a line of the edited file, as ranges of the file before."""
    for file, source in additions.sources.items():
        if os.path.realpath(file) != path:
            continue
        place, new_line = 0, 1
        for edit in additions.edits(file):
            new_line += source.count(b"\n", place, edit.begin)
            last = new_line + edit.text.count("\n")
            if new_line <= line <= last:
                yield edit.begin, edit.end
            place, new_line = edit.end, last


def spans_of(additions: Additions, path: str) -> Iterator[tuple[int, int]]:
    """The ranges of the edits of a file."""
    for file in additions.sources:
        if os.path.realpath(file) == path:
            yield from ((edit.begin, edit.end) for edit in additions.edits(file))
