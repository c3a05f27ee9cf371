"""The files as clang reads them: unchanged, or with their macros expanded line by line."""
import contextlib
import json
import os
import re
from collections.abc import Callable, Iterator
from functools import cache

from .clang import clang_for
from .reading import compiled_bytes
from .running import tool
from .trouble import Trouble
from .writing import whole_file

# Where a line of C ends for clang.
LINE_END = re.compile(r"\r\n|\n|\r")
expanded: dict[str, bytes] = {}
# Each says which files clang read: by their real paths, the digests of their contents.
compiled: list[Callable[[], dict[str, set[str]]]] = []


def take_from(files: Callable[[], dict[str, set[str]]]) -> None:
    """Lets the lines of these files be shown."""
    compiled.append(files)
    forget()


@contextlib.contextmanager
def in_place_of(files: dict[str, bytes]) -> Iterator[None]:
    """Lets these contents stand for those of the files, as clang reads them by an overlay."""
    before = dict(expanded)
    expanded.update((os.path.abspath(file), content) for file, content in files.items())
    forget()
    try:
        yield
    finally:
        expanded.clear()
        expanded.update(before)
        forget()


def forget() -> None:
    """Forgets what was read."""
    bytes_of.cache_clear()
    lines_of.cache_clear()


@cache
def bytes_of(file: str) -> bytes:
    """The bytes of a file that clang read for this program; none of any other file, since `#line` can name each file of the machine."""
    if os.path.abspath(file) in expanded:
        return expanded[os.path.abspath(file)]
    path = os.path.realpath(file)
    return compiled_bytes(path, set().union(*(files().get(path, set()) for files in compiled)))


@cache
def lines_of(file: str) -> list[str]:
    """The lines of a file."""
    return LINE_END.split(bytes_of(file).decode("utf-8", "replace"))


def line_of(file: str, line: int) -> str | None:
    """A line of a file, counted from 1."""
    lines = lines_of(file)
    return lines[line - 1] if 0 < line <= len(lines) else None


def expand_macros(files: list[str], clang_of: Callable[[str], list[str]], include: str, folder: str) -> list[str]:
    """Expands the macros of C files, each on its line; returns the arguments by which clang reads these texts."""
    texts = {}
    for file in files:
        command = [
            *clang_for(file),
            f"-I{include}",
            *clang_of(file),
            "-fsyntax-only",
            "-Xclang",
            "-rewrite-macros",
            "-o",
            "-",
            file,
        ]
        ran = tool(command)
        if ran.returncode:
            raise Trouble(f'{file}: the macros cannot be expanded:\n{ran.stderr.decode("utf-8", "replace").rstrip()}')
        texts[file] = expanded[os.path.abspath(file)] = ran.stdout
    forget()
    return overlay(texts, folder)


def overlay(files: dict[str, bytes], folder: str) -> list[str]:
    """The arguments by which clang reads these contents in place of the files."""
    roots = []
    for number, (file, content) in enumerate(sorted(files.items())):
        path = os.path.join(folder, f"edited.{number}{os.path.splitext(file)[1]}")
        with whole_file(path) as out:
            out.write(content)
        roots.append({"type": "file", "name": os.path.abspath(file), "external-contents": path})
    names = os.path.join(folder, "overlay.yaml")
    with whole_file(names) as out:
        out.write(json.dumps({"version": 0, "use-external-names": False, "roots": roots}).encode())
    return ["-ivfsoverlay", names]
