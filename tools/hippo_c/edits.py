"""Changes of C files: statements that are added after others, functions that are copied, and the diff of it all."""
import difflib
import os
import re
from collections.abc import Iterator
from dataclasses import dataclass, field

from .syntax import Statement, Tree
from .trouble import Trouble
from .writing import whole_file

DIRECTIVE = re.compile(rb"^[ \t]*#[ \t]*(?P<word>\w+)(?P<rest>(?:[^\n\\]|\\\r?\n|\\.)*)", re.M)


@dataclass
class Addition:
    """Statements that are put after one statement of a file."""

    tree: Tree
    statement: Statement
    flushes: list[str] = field(default_factory=list)
    fences: list[str] = field(default_factory=list)

    @property
    def texts(self) -> list[str]:
        """The statements in their order: flushes before fences."""
        return self.flushes + self.fences


@dataclass
class Edit:
    """Bytes of a file from one place to another, and the text that replaces them."""

    begin: int
    end: int
    text: str


class Additions:
    """The additions to the files, one for each statement, and the functions that are copied."""

    def __init__(self) -> None:
        self.by_statement: dict[tuple[str, int], Addition] = {}
        self.replacements: dict[str, list[Edit]] = {}
        self.sources: dict[str, bytes] = {}
        self.headers: dict[str, str] = {}

    def add(self, tree: Tree, statement: Statement, flushes: list[str], fences: list[str]) -> None:
        """Adds statements after one; those that are already there are not added twice."""
        self.sources[tree.file] = tree.source
        addition = self.by_statement.setdefault((tree.file, statement.end), Addition(tree, statement))
        for texts, more in ((addition.flushes, flushes), (addition.fences, fences)):
            texts += [text for text in more if text not in texts]

    def replace(self, tree: Tree, edit: Edit) -> None:
        """Replaces a text by another, once."""
        self.sources[tree.file] = tree.source
        edits = self.replacements.setdefault(tree.file, [])
        if edit not in edits:
            edits.append(edit)

    def include(self, file: str, header: str) -> None:
        """Includes a header, such as `<hippo.h>`, in a file that has edits."""
        self.headers[file] = header

    def merge(self, other: "Additions") -> None:
        """Takes in all that another one has."""
        for addition in other.by_statement.values():
            self.add(addition.tree, addition.statement, addition.flushes, addition.fences)
        for file, header in other.headers.items():
            self.include(file, header)
        for file, edits in other.replacements.items():
            self.sources[file] = other.sources[file]
            mine = self.replacements.setdefault(file, [])
            mine += [edit for edit in edits if edit not in mine]

    def edits(self, file: str) -> list[Edit]:
        """All edits of a file, from its front to its end."""
        found = list(self.replacements.get(file, []))
        if file in self.headers:
            found.append(edit_of_include(self.sources[file], self.headers[file]))
        for addition in self.by_statement.values():
            if addition.tree.file == file:
                found += edits_of(addition)
        return sorted(found, key=lambda edit: (edit.begin, edit.end))

    def edited(self) -> dict[str, bytes]:
        """The new contents of each file that changes."""
        return {file: applied(source, self.edits(file)) for file, source in self.sources.items()}

    def regions(self) -> Iterator[tuple[str, tuple[int, int], tuple[int, int], str]]:
        """Each edit as a file, the line and the column of bytes where it begins and where it ends, and its text."""
        for file, source in sorted(self.sources.items()):
            for edit in self.edits(file):
                yield file, place_of(source, edit.begin), place_of(source, edit.end), edit.text

    def apply(self) -> int:
        """Edits the files themselves; returns how many."""
        edited = self.edited()
        for file in edited:
            with open(file, "rb") as current:
                if current.read() != self.sources[file]:
                    raise Trouble(f"{file} has changed since it was checked", "nothing was edited; check it again")
        for file, new in edited.items():
            with whole_file(os.path.realpath(file), file) as out:
                out.write(new)
        return len(edited)

    def diff(self) -> str:
        """A unified diff, for `patch -p0`."""
        texts: list[str] = []
        for file, new in sorted(self.edited().items()):
            old_lines, new_lines = (
                text.decode("utf-8", "surrogateescape").splitlines(True) for text in (self.sources[file], new)
            )
            texts += difflib.unified_diff(old_lines, new_lines, file, file)
        return "".join(text if text.endswith("\n") else text + "\n\\ No newline at end of file\n" for text in texts)


def place_of(source: bytes, offset: int) -> tuple[int, int]:
    """The line and the column of an offset, from 1."""
    return source.count(b"\n", 0, offset) + 1, offset - source.rfind(b"\n", 0, offset)


def edit_of_include(source: bytes, header: str) -> Edit:
    """The edit that includes a header before the first one that is included under no condition, or else at the front of the file."""
    depth, guard, place = 0, b"", 0
    for found in DIRECTIVE.finditer(source):
        word, rest = found["word"], found["rest"].strip()
        if word == b"include" and depth == 0:
            place = found.start()
            break
        if word == b"define" and guard and rest.split()[:1] == [guard]:
            depth, guard, place = 0, b"", found.end() + 1
        elif word in (b"if", b"ifdef", b"ifndef"):
            guard = rest if word == b"ifndef" and depth == 0 else b""
            depth += 1
        elif word == b"endif":
            depth = max(depth - 1, 0)
    newline = "\r\n" if source[: source.find(b"\n") + 1].endswith(b"\r\n") else "\n"
    return Edit(place, place, f"#include {header}{newline}")


def edits_of(addition: Addition) -> list[Edit]:
    """The edits that put statements after one: on lines of their own where nothing else follows on its line."""
    tree, statement = addition.tree, addition.statement
    if statement.role == "body":
        return [
            Edit(statement.begin, statement.begin, "{ "),
            Edit(statement.end, statement.end, "".join(f" {text}" for text in addition.texts) + " }"),
        ]
    line_end = tree.source.find(b"\n", statement.end)
    line_end = len(tree.source) if line_end < 0 else line_end
    newline = "\n"
    if tree.source[line_end - 1 : line_end] == b"\r":
        line_end, newline = line_end - 1, "\r\n"
    rest = tree.source[statement.end : line_end].strip()
    if rest and not rest.startswith(b"//") and not (rest.startswith(b"/*") and rest.find(b"*/") == len(rest) - 2):
        return [Edit(statement.end, statement.end, "".join(f" {text}" for text in addition.texts))]
    indent = tree.indent(statement.begin)
    return [Edit(line_end, line_end, "".join(f"{newline}{indent}{text}" for text in addition.texts))]


def applied(source: bytes, edits: list[Edit], begin: int = 0, end: int | None = None) -> bytes:
    """A part of a file with the edits that lie in it."""
    end = len(source) if end is None else end
    parts, place = [], begin
    for edit in edits:
        if begin <= edit.begin and edit.end <= end:
            parts += [source[place : edit.begin], edit.text.encode("utf-8", "surrogateescape")]
            place = edit.end
    return b"".join(parts + [source[place:end]])
