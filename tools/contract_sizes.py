"""Functions and files that are larger than CONTRIBUTING allows, by crate.

    python3 tools/contract_sizes.py [--crates FOLDER] [--crate NAME]... [--clauses N] [--parameters N] [--body N] [--file N]

A line for each function with too many clauses (`requires` and `ensures` of its own), too many parameters (`self` counts) or
a body of too many lines, and for each file of too many lines. The exit code is 1 if there is such a line, and 2 for bad input.
The sources must have the layout of `rt fmt`: a clause begins a line, and the brace that ends a body stands in the column of its
`fn`.
"""

from __future__ import annotations

import argparse
import re
import sys
from collections.abc import Iterator
from dataclasses import dataclass
from pathlib import Path

TOP = Path(__file__).resolve().parent.parent
HEAD = re.compile(r"^(\s*)(?:pub(?:\([a-z ]+\))? )?(?:const )?(?:unsafe )?fn (\w+)")
CLAUSE = re.compile(r"^\s*(?:requires|ensures)\b")
OPENING, CLOSING = "([{<", ")]}>"
SOURCES = ("src/**/*.rt", "specs/**/*.antt", "proofs/**/*.antt")


class Refused(Exception):
    """A folder or a file that cannot be read, and the reason."""


@dataclass(frozen=True)
class Limits:
    """The largest sizes that are allowed."""

    clauses: int = 6
    parameters: int = 6
    body: int = 40
    file: int = 800


@dataclass(frozen=True)
class Function:
    """A function with the line of its `fn`, counted from 1, and its sizes."""

    name: str
    line: int
    clauses: int
    parameters: int
    body: int


def parameters_in(signature: str) -> int:
    """The number of parameters of a signature, which begins at the name of the function."""
    text = signature.replace("->", "  ")
    depth, angle, start = 0, 0, None
    pieces: list[str] = []
    for at, letter in enumerate(text):
        if start is None:
            angle += (letter == "<") - (letter == ">")
            if letter == "(" and not angle:
                start = at + 1
            continue
        if letter in OPENING:
            depth += 1
        elif letter == "," and not depth:
            pieces.append(text[start:at])
            start = at + 1
        elif letter in CLOSING:
            if not depth:
                pieces.append(text[start:at])
                break
            depth -= 1
    return sum(1 for piece in pieces if piece.strip())


def functions_in(text: str) -> Iterator[Function]:
    """The functions of a file."""
    lines = text.splitlines()
    for at, line in enumerate(lines):
        head = HEAD.match(line)
        if head:
            yield function_at(lines, at, head.group(1), head.group(2))


def function_at(lines: list[str], at: int, indent: str, name: str) -> Function:
    """The function whose `fn` is in the line `at`, in the column of `indent`."""
    opening = last_of_head(lines, at, indent)
    clauses = [row for row in range(at, opening + 1) if CLAUSE.match(lines[row])]
    head = lines[at : clauses[0] if clauses else opening + 1]
    signature = " ".join(line.split("//", 1)[0].strip() for line in head)
    parameters = parameters_in(signature[signature.index(f"fn {name}") + 3 :])
    body = 0
    if lines[opening].endswith("{"):
        closing = next((row for row in range(opening, len(lines)) if lines[row] == indent + "}"), None)
        if closing is None:
            raise Refused(f"line {at + 1}: a function without an end")
        body = closing - opening - 1
    return Function(name, at + 1, len(clauses), parameters, body)


def last_of_head(lines: list[str], at: int, indent: str) -> int:
    """The line that opens the body of the function, or ends it if it is a declaration or empty."""
    depth, in_clauses = 0, False
    for row in range(at, len(lines)):
        line = lines[row]
        if line in (indent + "{", indent + "{}"):
            return row
        in_clauses = in_clauses or CLAUSE.match(line) is not None
        if not in_clauses and line.endswith(("{", "{}")):
            return row
        depth += line.count("{") - line.count("}")
        if not depth and line.endswith(";"):
            return row
    raise Refused(f"line {at + 1}: a function without an end")


def excesses(name: str, text: str, limits: Limits) -> list[str]:
    """What is too large in a file of this name, a line each."""
    found: list[str] = []
    length = len(text.splitlines())
    if length > limits.file:
        found.append(f"{name}: {length} lines")
    for function in functions_in(text):
        sizes = [
            (function.clauses, limits.clauses, "clauses"),
            (function.parameters, limits.parameters, "parameters"),
            (function.body, limits.body, "lines of body"),
        ]
        large = [f"{size} {word}" for size, limit, word in sizes if size > limit]
        if large:
            found.append(f"{name}:{function.line}: {function.name}: {', '.join(large)}")
    return found


def report_of(crate: Path, limits: Limits) -> list[str]:
    """The lines of a crate; none if nothing is too large."""
    files = [file for pattern in SOURCES for file in sorted(crate.glob(pattern))]
    found: list[str] = []
    for file in files:
        try:
            found += excesses(str(file.relative_to(crate)), file.read_text(encoding="utf-8"), limits)
        except (OSError, UnicodeDecodeError, Refused) as fault:
            raise Refused(f"{file}: {fault}") from None
    return [f"{crate.name}:", *(f"  {line}" for line in found)] if found else []


def folders_of(crates: Path, names: list[str] | None) -> list[Path]:
    """The folders of the named crates, or of all."""
    if not crates.is_dir():
        raise Refused(f"no such folder: {crates}")
    if names is None:
        return [folder for folder in sorted(crates.iterdir()) if folder.is_dir()]
    missing = [name for name in names if not (crates / name).is_dir()]
    if missing:
        raise Refused(f"no such crate: {' '.join(missing)}")
    return [crates / name for name in names]


def parse(words: list[str]) -> argparse.Namespace:
    """The options of the command line."""
    parser = argparse.ArgumentParser(description=__doc__.splitlines()[0])
    parser.add_argument("--crates", type=Path, default=TOP / "crates", help="the folder of the crates")
    parser.add_argument("--crate", action="append", help="this crate only; may be given again")
    parser.add_argument("--clauses", type=int, default=Limits.clauses, help="the most clauses of a contract")
    parser.add_argument("--parameters", type=int, default=Limits.parameters, help="the most parameters of a function")
    parser.add_argument("--body", type=int, default=Limits.body, help="the most lines of a body")
    parser.add_argument("--file", type=int, default=Limits.file, help="the most lines of a file")
    return parser.parse_args(words)


def main(words: list[str]) -> int:
    """Reads the words, prints what is too large, and returns the exit code."""
    order = parse(words)
    limits = Limits(order.clauses, order.parameters, order.body, order.file)
    try:
        lines = [line for folder in folders_of(order.crates, order.crate) for line in report_of(folder, limits)]
    except Refused as fault:
        print(f"contract_sizes: {fault}", file=sys.stderr)
        return 2
    if lines:
        print("\n".join(lines))
    return 1 if lines else 0


if __name__ == "__main__":
    sys.exit(main(sys.argv[1:]))
