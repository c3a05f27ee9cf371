"""What the scripts of this folder share: PMDK's source, the programs over it, their native builds and their lowered texts."""
from __future__ import annotations

import argparse
import hashlib
import os
import random
import re
import subprocess
import sys
import tempfile
from dataclasses import dataclass, field

HERE = os.path.dirname(os.path.abspath(__file__))
sys.path.insert(0, os.path.dirname(HERE))
from packages import Packages  # noqa: E402
from steps import Setting, run  # noqa: E402

from library import EXAMPLE, Library  # noqa: E402

SUITE = "trixie"
UUID = "6cb6bd29-6d2a-4e4c-9c5a-0e6a6cbd4b1d\n"
OPERATIONS = 80
# The operations of maps.c.
INSERT, REMOVE, REPLACE_SPARE = 1, 2, 3
MAP_NAMES = ("btree", "ctree", "rbtree", "hashmap_tx", "hashmap_atomic", "hashmap_rp", "skiplist")
ANY_CODE = tuple(range(128))


def options_of(pool: str = "", heap: str = "14M") -> list[str]:
    """The options of tools/lower; a pool may begin with the bytes of a file."""
    data = f"data.pool=8M,{pool}" if pool else "data.pool=8M"
    words = ["--single-thread", "--file-calls", "--ignore-output", "--heap", heap]
    return [*words, "--pool", data, "--pool", "uuid=64,uuid"]


@dataclass
class Piece:
    """A program: its driver in this folder, files of PMDK beside libpmemobj, and its inputs by name."""

    name: str
    sources: list[str] = field(default_factory=list)
    counted: list[str] = field(default_factory=list)
    inputs: dict[str, list[int]] = field(default_factory=dict)
    needs_maps: bool = False


def map_input(kind: int, count: int = OPERATIONS, seed: int = 1, spares: int = 0) -> list[int]:
    """The numbers for a map: insertions of new keys, and removals of keys that are there; after each `spares` of these a new spare object."""
    chosen, numbers = random.Random(seed), [kind]
    keys: set[int] = set()
    for number in range(count):
        if keys and chosen.random() > 0.65:
            key = chosen.choice(sorted(keys))
            keys.remove(key)
            numbers += [REMOVE, key]
        else:
            key = chosen.choice([key for key in range(1, 250) if key not in keys])
            keys.add(key)
            numbers += [INSERT, key]
        if spares and number % spares == spares - 1:
            numbers += [REPLACE_SPARE, 0]
    return [*numbers, 0]


MAPS = Piece("maps", inputs={name: map_input(kind) for kind, name in enumerate(MAP_NAMES)}, needs_maps=True)


def native_object(setting: Setting, file: str, arguments: list[str]) -> str:
    """The native object of a C file, which is compiled once for the same words."""
    words = ["clang-19", "-O1", "-c", "-w", "-mclwb", "-mclflushopt", f"-I{setting.top}/tools", *arguments, file]
    name = f"{os.path.basename(file)}.{hashlib.sha256(' '.join(words).encode()).hexdigest()[:16]}.o"
    target = os.path.join(setting.scratch, name)
    if not os.path.exists(target):
        run([*words, "-o", f"{target}.new"], setting.scratch)
        os.rename(f"{target}.new", target)
    return target


class Work:
    """PMDK's source, and the folder in which everything is made."""

    def __init__(self, source: str, setting: Setting) -> None:
        self.library, self.setting, self.folder = Library(source), setting, setting.scratch
        self.hippo_c = f"{setting.top}/tools/hippo-c"
        with open(f"{self.folder}/uuid", "w", encoding="ascii") as file:
            file.write(UUID)

    def files_of(self, piece: Piece) -> list[str]:
        """The driver and all C files of a piece."""
        driver = self.library.note([f"{HERE}/{piece.name}.c"], [*self.library.of_examples, f"-I{HERE}"])
        own = self.library.note([f"{EXAMPLE}/{name}" for name in piece.sources], self.library.of_examples)
        return [*driver, *own, *(self.library.maps if piece.needs_maps else []), *self.library.files]

    def object_of(self, file: str) -> str:
        """The native object of a file."""
        return native_object(self.setting, file, self.library.arguments[file])

    def native(self, piece: Piece) -> str:
        """The native program."""
        objects = [self.object_of(file) for file in self.files_of(piece)]
        program, tools = f"{self.folder}/{piece.name}.native", f"{self.setting.top}/tools"
        words = ["clang-19", "-mclflushopt", f"-I{tools}", "-o", program, *objects, f"{tools}/external_functions.c"]
        run([*words, "-Wl,--allow-multiple-definition", "-ldl", "-lpthread"], self.folder)
        return program

    def expected(self, program: str, numbers: list[int]) -> tuple[str, int]:
        """The numbers that the native program prints on an input, and its exit code; it may print texts too, and the others do not."""
        with tempfile.TemporaryDirectory(dir=self.folder) as place:
            words = ["sh", "-c", f'echo {" ".join(map(str, numbers))} | {program}']
            done = run(words, place, {"PMEM_IS_PMEM_FORCE": "1"}, ANY_CODE)
        return numbers_of(done.stdout), done.returncode

    def words_for(self, piece: Piece) -> list[str]:
        """The words by which tools/lower and hippo-c find and keep the modules of a piece."""
        files = self.files_of(piece)
        commands = self.library.write_commands(f"{self.folder}/{piece.name}.json")
        return ["--cache", f"{self.folder}/modules", "--compile-commands", commands, *files]

    def lowered(self, piece: Piece, *more: str, options: list[str] | None = None) -> str:
        """The lowered text."""
        words = [f"{self.setting.top}/tools/lower", *(options or options_of()), *more, *self.words_for(piece)]
        return run([*words, "--", "-w"], self.folder).stdout

    def answer(self, command: str, piece: Piece, *words: str, options: list[str] | None = None) -> str:
        """What a command of hippo-c prints of a piece; it may end with 1, that is with reports or failures."""
        said = [sys.executable, self.hippo_c, command, *(options or options_of()), *words, *self.words_for(piece)]
        done = run([*said, "--", "-w"], self.folder, {"HIPPO_PROGRAM": self.setting.hippo}, (0, 1))
        return done.stdout


class Timing:
    """The time of a processor that commands take."""

    def __init__(self) -> None:
        self.begin = processor_seconds()

    def seconds(self) -> float:
        """The seconds since the last call."""
        before, self.begin = self.begin, processor_seconds()
        return self.begin - before


def processor_seconds() -> float:
    """The time that the commands so far took of a processor."""
    used = os.times()
    return used.children_user + used.children_system


def numbers_of(printed: str) -> str:
    """The lines of an output that are numbers."""
    return "".join(f"{line}\n" for line in printed.splitlines() if re.fullmatch(r"-?[0-9]+", line))


def ended(done: subprocess.CompletedProcess[str]) -> str:
    """How a run of hippo ends: the last line of its messages."""
    return (done.stderr.strip().splitlines() or [""])[-1]


def source_of(options: argparse.Namespace) -> str:
    """The folder of PMDK's source."""
    if options.source:
        return str(options.source)
    found = Packages(options.folder, SUITE).source("pmdk")
    if not found:
        sys.exit("the source of pmdk could not be fetched")
    return found


def arguments_of(description: str | None) -> argparse.ArgumentParser:
    """The options of the command line."""
    top = os.path.abspath(os.path.join(HERE, "../../../.."))
    parser = argparse.ArgumentParser(description=description, formatter_class=argparse.RawDescriptionHelpFormatter)
    parser.add_argument("--top", default=top, help="the repository whose tools are tried")
    parser.add_argument(
        "--hippo", default=os.environ.get("HIPPO_PROGRAM", f"{top}/out/hippo"), help="the program hippo (out/hippo)"
    )
    parser.add_argument("--folder", default=os.path.expanduser("~/.cache/hippo-debian"), help="where packages are kept")
    parser.add_argument("--source", help="the folder of an unpacked source, which is then not fetched")
    parser.add_argument("--keep", help="keep the files that are made in this folder, and take those that it has")
    parser.add_argument("--jobs", type=int, default=2, help="how many are tried at once")
    parser.add_argument("names", nargs="*", help="what is tried; without names, all of them")
    return parser


def setting_of(options: argparse.Namespace, scratch: str) -> Setting:
    """Where everything is."""
    if options.keep:
        os.makedirs(options.keep, exist_ok=True)
    return Setting(options.top, options.hippo, os.path.abspath(options.keep) if options.keep else scratch, None)


def print_head(headings: tuple[str, ...]) -> None:
    """Prints the head of a table."""
    print("| " + " | ".join(headings) + " |\n|" + "---|" * len(headings), flush=True)


def print_row(row: tuple[object, ...]) -> None:
    """Prints a row of a table."""
    print("| " + " | ".join(f"{cell:,}" if isinstance(cell, int) else str(cell) for cell in row) + " |", flush=True)
