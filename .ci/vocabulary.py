#!/usr/bin/env python3
"""Holds the code and the pages to docs/VOCABULARY.md: pairs of words that must not mix, names that have one meaning, the places of its rows,
and the links of the pages to definitions."""

from __future__ import annotations

import re
import sys
from collections.abc import Iterator
from dataclasses import dataclass
from pathlib import Path

TOP = Path(__file__).resolve().parent.parent
PAGE = "docs/VOCABULARY.md"
# Pages whose files and definitions exist, beside the vocabulary.
MAPS = ["docs/RUN.md", "CONTRIBUTING.md", "docs/ARCHITECTURE.md"]
PAIRS = "## Pairs that must not mix"
# Words that end like gerunds and name things.
THINGS = {"spelling", "pending", "meaning", "mending", "nothing", "ending", "string"}
# Each trait of a library gives its impls a type of that name.
SHARED = {"Item", "Meaning", "Value"}
RECORD = re.compile(r"^(?:pub )?(?:record|data) (?:pub )?([A-Za-z]\w*)", re.M)
TYPE = re.compile(r"^(?:pub(?:\([a-z]+\))? )?(?:struct|enum|trait|type) (\w+)", re.M)
# A crate or a file in backticks; after a colon names in it, each perhaps with a remark in parentheses.
NAMED = re.compile(r"`(hip_[\w/.]+)`(:\s+`[\w:]+`(?: \([^)]*\))?(?:,\s+`(?!hip_)[\w:]+`(?: \([^)]*\))?)*)?")
# A link from a page to the file of a definition.
LINK = re.compile(r"\[`([\w-]+)`\]\(\.\./(crates/[\w/.-]+)\)")
GERUND = re.compile(r"(?:^|_|(?<=[a-z])(?=[A-Z]))([A-Za-z][a-z]*ing)$")


@dataclass(frozen=True)
class Pair:
    """A word that must not stand in some files, and the word that must."""

    word: str
    where: str
    instead: str


def rows(text: str) -> Iterator[list[str]]:
    """The cells of each row of the tables of a page, without the heads."""
    lines = text.splitlines()
    for line, below in zip(lines, [*lines[1:], ""]):
        cells = [cell.strip() for cell in line.strip().strip("|").split("|")]
        if line.startswith("|") and not set(line) <= set("|-") and not (below and set(below) <= set("|-")):
            yield cells


def pairs(page: str) -> list[Pair]:
    """The pairs of the last table of the vocabulary."""
    _, found, table = page.partition(PAIRS)
    if not found:
        raise SystemExit(f"{PAGE}: no section of pairs")
    return [Pair(*cells) for cells in rows(table) if len(cells) == 3]


def sources(top: Path, pattern: str) -> Iterator[Path]:
    """The files of the crates that match, without what the toolchain makes."""
    for path in sorted((top / "crates").glob(pattern)):
        if path.relative_to(top / "crates").parts[1] != "out":
            yield path


def files_of(top: Path, where: str) -> Iterator[Path]:
    """The files in which the word of a pair must not stand."""
    if where == "crates, pages":
        for pattern in ("*/src/**/*.rt", "*/specs/**/*.antt", "*/proofs/**/*.antt"):
            yield from sources(top, pattern)
        yield from sorted(path for path in [*top.glob("*.md"), *top.glob("docs/*.md")] if path.name != "VOCABULARY.md")
        return
    for folder in re.findall(r"`(hip_\w+/(?:src|specs))`", where):
        ending = "rt" if folder.endswith("src") else "antt"
        yield from sources(top, f"{folder}/**/*.{ending}")


def pattern_of(pair: Pair) -> re.Pattern[str]:
    """What a pair refuses: a name with this beginning or end, or the word."""
    if pair.word.endswith("_"):
        return re.compile(rf"\bfn {pair.word}\w+")
    if pair.word.startswith("_"):
        return re.compile(rf"^(?:abbrev )?(?:pub )?\w+{pair.word} :", re.M)
    if "code" in pair.where:
        return re.compile(rf"^(?!\s*//).*(?<![\w`]){pair.word}(?!\w)", re.M)
    return re.compile(rf"(?<![\w`-]){pair.word}s?(?![\w`])", re.I)


def mixed(top: Path, page: str) -> Iterator[str]:
    """Each word that a pair refuses."""
    for pair in pairs(page):
        pattern = pattern_of(pair)
        for path in files_of(top, pair.where):
            text = path.read_text(encoding="utf-8")
            for match in pattern.finditer(text):
                line = text.count("\n", 0, match.start()) + 1
                yield f"{path.relative_to(top)}:{line}: {match.group(0).strip()[-40:]!r}, but the word is {pair.instead}"


def twice(top: Path, pattern: str, names: re.Pattern[str], what: str) -> Iterator[str]:
    """Each name that two files define."""
    homes: dict[str, list[str]] = {}
    for path in sources(top, pattern):
        if path.relative_to(top / "crates").parts[0].endswith("_tests"):
            continue
        for name in sorted(set(names.findall(path.read_text(encoding="utf-8"))) - SHARED):
            homes.setdefault(name, []).append(str(path.relative_to(top)))
    for name, files in sorted(homes.items()):
        if len(files) > 1:
            yield f"{files[1]}: {what} {name} is in {files[0]} too"


def gerunds(top: Path) -> Iterator[str]:
    """Each file that is named by what it does, and not by a thing."""
    for pattern in ("*/src/**/*.rt", "*/specs/**/*.antt"):
        for path in sources(top, pattern):
            match = GERUND.search(path.stem)
            if match and match.group(1).lower() not in THINGS:
                yield f"{path.relative_to(top)}: a file is a thing, and its name no gerund"


def is_there(top: Path, place: str, name: str) -> bool:
    """Whether a crate or a file of the crates exists, and has a definition of that name."""
    base = top / "crates" / place
    if not name or not base.exists():
        return base.exists()
    files = (
        [base]
        if base.is_file()
        else [path for pattern in ("src/**/*.rt", "specs/**/*.antt") for path in sorted(base.glob(pattern))]
    )
    word = re.compile(rf"\b{re.escape(name.split('::')[-1])}\b")
    if base.is_file():
        word = re.compile(rf"\b(?:fn|enum|struct|trait) {re.escape(name)}\b")
    return any(word.search(path.read_text(encoding="utf-8")) for path in files)


def lost(top: Path, page: str) -> Iterator[str]:
    """Each place of a page that names nothing: a crate or a file in backticks, and the names after it."""
    text = (top / page).read_text(encoding="utf-8").partition(PAIRS)[0]
    for place, names in NAMED.findall(text):
        for name in re.findall(r"`([\w:]+)`", re.sub(r"\([^)]*\)", "", names)) or [""]:
            if not is_there(top, place, name):
                yield f"{page}: {': '.join(part for part in (place, name) if part)} is not there"


def defines(path: Path, name: str) -> bool:
    """Whether a file of definitions has one of that name."""
    return (
        re.search(
            rf"^ *(?:pub )?(?:record|abbrev|data)(?: pub)? {re.escape(name)}(?![\w-])",
            path.read_text(encoding="utf-8"),
            re.M,
        )
        is not None
    )


def astray(top: Path) -> Iterator[str]:
    """Each link of a page to a definition that is not in that file."""
    for page in sorted(top.glob("docs/*.md")):
        text = page.read_text(encoding="utf-8")
        for link in LINK.finditer(text):
            name, path = link.groups()
            if not (top / path).is_file() or not defines(top / path, name):
                yield f"{page.relative_to(top)}:{text.count(chr(10), 0, link.start()) + 1}: {path} does not define {name}"


def faults(top: Path) -> list[str]:
    """Each fault of a repository against its vocabulary."""
    page = (top / PAGE).read_text(encoding="utf-8")
    return [
        *mixed(top, page),
        *twice(top, "*/specs/**/*.antt", RECORD, "a record"),
        *twice(top, "*/src/**/*.rt", TYPE, "a type"),
        *gerunds(top),
        *lost(top, PAGE),
        *astray(top),
        *(fault for name in MAPS if (top / name).exists() for fault in lost(top, name)),
    ]


def main() -> int:
    """Prints each fault; returns 1 if there is one."""
    found = faults(TOP)
    for fault in found:
        print(fault)
    return 1 if found else 0


if __name__ == "__main__":
    sys.exit(main())
