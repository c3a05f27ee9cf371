#!/usr/bin/env python3
"""Writes a tags file, in the form of ctags, for the Rattle sources and the definitions and lemmas of this repository.

usage: python3 editors/tags.py [FILE]

FILE is `tags` at the top of the repository by default; vi, Emacs and other editors find it there.
"""

from __future__ import annotations

import re
import sys
from pathlib import Path
from typing import Iterator

TOP = Path(__file__).resolve().parent.parent
RATTLE = re.compile(r"^\s*(?:pub(?:\([a-z]+\))?\s+)?(?:const\s+)?(fn|struct|enum|trait|type|mod|const|static)\s+(\w+)")
DEFINITION = re.compile(r"^(?:abbrev|record|data|unfoldable|opaque)(?: pub)? ([^\s:({]+)")
# A lemma has a signature and no word before its name.
LEMMA = re.compile(r"^([^\s:(){}-][^\s:(){}]*) : ")
HEADER = "!_TAG_FILE_FORMAT\t2\t/extended format/\n!_TAG_FILE_SORTED\t1\t/0=unsorted, 1=sorted/\n"
KINDS = {"fn": "f", "struct": "s", "enum": "g", "trait": "i", "type": "t", "mod": "n", "const": "c", "static": "c"}


def names_in(line: str, ending: str) -> tuple[str, str] | None:
    """The name that a line defines, and its kind in the tags file."""
    if ending == ".rt":
        found = RATTLE.match(line)
        return (found[2], KINDS[found[1]]) if found else None
    found = DEFINITION.match(line)
    if found:
        return found[1], "d"
    found = LEMMA.match(line)
    return (found[1], "l") if found else None


def tags_of(file: Path, top: Path) -> Iterator[str]:
    """The lines of the tags file for one source."""
    for number, line in enumerate(file.read_text(encoding="utf-8").splitlines(), 1):
        named = names_in(line, file.suffix)
        if named:
            yield f'{named[0]}\t{file.relative_to(top)}\t{number};"\t{named[1]}\n'


def sources(top: Path) -> list[Path]:
    """The sources below `crates`, without what a build makes."""
    found = [path for ending in ("rt", "antt") for path in (top / "crates").rglob(f"*.{ending}")]
    return sorted(path for path in found if "out" not in path.relative_to(top).parts)


def main(words: list[str]) -> int:
    """Writes the file."""
    if len(words) > 1 or words[:1] == ["--help"]:
        print(__doc__, end="")
        return 0 if words == ["--help"] else 1
    target = Path(words[0]) if words else TOP / "tags"
    lines = sorted({line for file in sources(TOP) for line in tags_of(file, TOP)})
    target.write_text(HEADER + "".join(lines), encoding="utf-8")
    print(f"{target}: {len(lines)} names")
    return 0


if __name__ == "__main__":
    sys.exit(main(sys.argv[1:]))
