"""The files of definitions that one must read to believe the headline, in an order in which each comes after those it uses.

    python3 tools/reading_list.py [--crates FILE] [--root NAME] [--check PAGE]

The headline is `Headline` in crates/hip_tool/specs/Headline.antt. A file of definitions names what it uses in its `use` lines.
The list has every file of `specs/` that these lines reach, in the order of crates.txt, and in a crate each file after those that
it uses. Types and constants that the code declares have no such file: the last lines name their source files. With `--check`
the list of a page must be this one; the exit code is 1 if it is not, and 2 for bad input.
"""

from __future__ import annotations

import argparse
import re
import sys
from dataclasses import dataclass, field
from pathlib import Path

TOP = Path(__file__).resolve().parent.parent
ROOT = "hip_tool/specs/Headline.antt"
USE = re.compile(r"^use Rattle\.([\w.+-]+?)(?:\.\{[^}]*\})?(?: as \w+)?$", re.M)
ITEM = re.compile(r"^- `([\w/]+\.(?:antt|rt))`", re.M)


class Refused(Exception):
    """A file that cannot be read or a name that stands for none, and the reason."""


@dataclass
class Reading:
    """The files of definitions, each after those that it uses, and the source files of declared types and constants."""

    definitions: list[str] = field(default_factory=list)
    declared: set[str] = field(default_factory=set)


def text_of(file: Path) -> str:
    """The text of a file."""
    try:
        return file.read_text(encoding="utf-8")
    except (OSError, UnicodeDecodeError) as error:
        raise Refused(f"{file}: {error}") from None


def crates_in(file: Path) -> list[str]:
    """The crates of a crates.txt, in its order."""
    lines = (line.split("#", 1)[0] for line in text_of(file).splitlines())
    return [line.partition(":")[0].strip() for line in lines if ":" in line]


def source_of(folder: Path, crate: str, parts: list[str]) -> str:
    """The source file of a declared module: its longest front that is a file; `lib.rt` if there is none."""
    for length in range(len(parts), 0, -1):
        name = "/".join([crate, "src", *parts[:length]]) + ".rt"
        if (folder / name).is_file():
            return name
    return f"{crate}/src/lib.rt"


def definition_of(folder: Path, crate: str, parts: list[str]) -> str:
    """The file of definitions of a module: its longest front that is a file."""
    for length in range(len(parts), 1, -1):
        name = "/".join([crate, *parts[:length]]) + ".antt"
        if (folder / name).is_file():
            return name
    raise Refused(f"no file for {'.'.join([crate, *parts])}")


def read_from(folder: Path, crates: set[str], root: str) -> Reading:
    """What the `use` lines reach from a file of definitions."""
    reading, begun = Reading(), set()

    def visit(name: str) -> None:
        if name in begun:
            return
        begun.add(name)
        for module in USE.findall(text_of(folder / name)):
            crate, *parts = module.split(".")
            if crate not in crates:
                continue
            if parts[0] != "specs":
                raise Refused(f"{name}: a definition rests on {module}")
            if parts[1] in ("declared", "contracts"):
                reading.declared.add(source_of(folder, crate, parts[2:]))
            else:
                visit(definition_of(folder, crate, parts))
        reading.definitions.append(name)

    visit(root)
    return reading


def in_order(names: list[str], crates: list[str]) -> list[str]:
    """The files by the order of their crates; those of a crate keep their order."""
    return sorted(names, key=lambda name: crates.index(name.split("/", 1)[0]))


def list_of(folder: Path, crates: list[str], root: str) -> list[str]:
    """The whole list: the files of definitions, and then the source files of what the code declares."""
    reading = read_from(folder, set(crates), root)
    return in_order(reading.definitions, crates) + in_order(sorted(reading.declared), crates)


def main(words: list[str] | None = None) -> int:
    """Prints the list, or compares it with the list of a page."""
    options = argparse.ArgumentParser(prog="tools/reading_list.py", description=__doc__)
    options.add_argument(
        "--crates", type=Path, default=TOP / "crates.txt", help="the list of the crates; their folder is beside it"
    )
    options.add_argument(
        "--root", default=ROOT, help="the file of definitions to begin with, under the folder of the crates"
    )
    options.add_argument("--check", type=Path, help="a page whose list must be this one")
    given = options.parse_args(words)
    try:
        wanted = list_of(given.crates.parent / "crates", crates_in(given.crates), given.root)
        if given.check is None:
            print("\n".join(f"- `{name}`" for name in wanted))
            return 0
        listed = ITEM.findall(text_of(given.check))
    except Refused as refused:
        print(f"reading_list: {refused}", file=sys.stderr)
        return 2
    differ = [name for name in wanted if name not in listed] + [name for name in listed if name not in wanted]
    for name in differ:
        print(f"{given.check}: {'missing' if name in wanted else 'not needed'}: {name}")
    if not differ and listed != wanted:
        print(f"{given.check}: the order differs")
    return 0 if listed == wanted else 1


if __name__ == "__main__":
    sys.exit(main())
