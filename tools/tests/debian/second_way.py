#!/usr/bin/env python3
"""The line that hippo-c gives for a report, and the line of the instruction that makes the store in clang's native build.

Clang builds each piece of C from Debian's packages for the processor, with store_tracer.c, which notes each change of a byte of
persistent memory with its instruction. For a reported store the trace of hippo gives the number of the change of a byte: the first,
the second and so on. llvm-symbolizer gives the line of the instruction that makes this change natively. The innermost frame in the
piece's files must be at the line that hippo-c gives. A line shows the result of each piece; the exit code is 1 if a line differs.
"""
import argparse
import os
import re
import subprocess
import sys
import tempfile
from dataclasses import dataclass

sys.dont_write_bytecode = True
HERE = os.path.dirname(os.path.abspath(__file__))
TOOLS = os.path.dirname(os.path.dirname(HERE))
sys.path[:0] = [TOOLS, HERE]
from hippo_c.program import parse_site  # noqa: E402
from hippo_c.progress import Progress  # noqa: E402
from hippo_c.reports import Group  # noqa: E402
from hippo_c.running import lines_of  # noqa: E402
from hippo_c.request import Request  # noqa: E402
from hippo_c.session import Session  # noqa: E402
from hippo_c.traces import pieces as entries_of  # noqa: E402
from packages import Packages  # noqa: E402
from pieces import PIECES, Piece  # noqa: E402
from steps import Differs, clang_flags, configure, make_files, source_files  # noqa: E402

NATIVE = (
    """-g -fwrapv -fno-strict-aliasing -fno-inline -fno-vectorize -fno-slp-vectorize -fno-unroll-loops -fno-pic -no-pie
    -fno-stack-protector -fno-optimize-sibling-calls -fno-omit-frame-pointer -ffunction-sections -mclwb -mclflushopt
    -Wl,--gc-sections -mcmodel=large -Wl,--section-start=.pm=0x100000000 -Wl,-z,now"""
).split()


@dataclass
class Byte:
    """A byte that a reported store changes, and how often it changed before."""

    address: int
    before: int


def changed_bytes(path: str, wanted: set[int]) -> dict[int, Byte]:
    """For each wanted store, the byte with the fewest earlier changes, among those that it changes."""
    values: dict[int, int] = {}
    changes: dict[int, int] = {}
    found: dict[int, Byte] = {}
    for number, entry in enumerate(entries_of(path), 1):
        word, *rest = entry.split(";")
        if word == "IMAGE":
            start = int(rest[0], 16)
            values.update((start + place, byte) for place, byte in enumerate(bytes.fromhex(rest[1].removeprefix("0x"))))
        if word != "STORE":
            continue
        start, value, size = (int(text, 16) for text in rest)
        for place, byte in enumerate(value.to_bytes(8, "little")[:size]):
            address = start + place
            if values.get(address, 0) == byte:
                continue
            if number in wanted and (number not in found or changes.get(address, 0) < found[number].before):
                found[number] = Byte(address, changes.get(address, 0))
            values[address] = byte
            changes[address] = changes.get(address, 0) + 1
    return found


def reported_bytes(session: Session, path: str, groups: list[Group]) -> list[tuple[Group, Byte]]:
    """For each group a byte of one of its stores."""
    group_of = {(group.kind, tuple(one)): group for group in groups for one in (group.path, *group.more)}
    stores: dict[int, Group] = {}
    counts: dict[int, int] = {}
    for line in lines_of(["check", session.text_path, path]):
        words = line.split(" ")
        sites = tuple(map(parse_site, line.partition("path ")[2].split(" ")))
        group = group_of.get((words[1], sites))
        if group and counts.setdefault(id(group), 0) < 200:
            counts[id(group)] += 1
            stores.setdefault(int(words[3]), group)
    best: dict[int, tuple[Group, Byte]] = {}
    for number, byte in changed_bytes(path, set(stores)).items():
        group = stores[number]
        if id(group) not in best or byte.before < best[id(group)][1].before:
            best[id(group)] = (group, byte)
    return [best[id(group)] for group in groups if id(group) in best]


class Native:
    """The native build of a piece, and the changes of bytes that its run makes."""

    def __init__(self, program: str, folder: str, arguments: list[str]) -> None:
        self.program = program
        sections = output(["llvm-readelf-19", "-S", "--wide", program])
        found = re.search(r"\s\.pm\s+PROGBITS\s+(\w+)\s+\w+\s+(\w+)", sections)
        if found is None:
            raise Differs(f"{program} has no section .pm")
        environment = {**os.environ, "STORE_RANGE": f"{found[1]} {found[2]}", "STORE_TRACE": f"{folder}/changes"}
        subprocess.run(
            [program, *arguments],
            cwd=folder,
            env=environment,
            stdin=subprocess.DEVNULL,
            stdout=subprocess.DEVNULL,
            timeout=900,
        )
        self.changes: dict[int, list[list[str]]] = {}
        with open(f"{folder}/changes", encoding="ascii") as file:
            for line in file:
                address, _, *instructions = line.split()
                self.changes.setdefault(int(address, 16), []).append(instructions)
        self.symbols = {
            name: int(address, 16)
            for address, name in re.findall(r"^(\w+) \w (\S+)$", output(["llvm-nm-19", program]), re.M)
        }

    def line(self, symbol: str, offset: int, before: int, folders: tuple[str, ...]) -> str:
        """The line of the innermost frame in these folders at a change of a byte."""
        changes = self.changes.get(self.symbols.get(symbol, 0) + offset, [])
        if before >= len(changes):
            return f"{len(changes)} changes"
        words = [
            "llvm-symbolizer-19",
            "-e",
            self.program,
            "--output-style=GNU",
            "-i",
            *(f"0x{one}" for one in changes[before]),
        ]
        for line in output(words).split("\n"):
            file, _, number = line.split(" ")[0].rpartition(":")
            if os.path.realpath(file).startswith(folders):
                return f"{os.path.realpath(file)}:{number}"
        return "no line"


def output(words: list[str]) -> str:
    """What a command writes to standard output."""
    return subprocess.run(words, stdout=subprocess.PIPE, stdin=subprocess.DEVNULL, text=True, check=True).stdout


def compare(piece: Piece, source: str, level: str, most: int, folder: str) -> tuple[int, int, int, list[str]]:
    """The numbers of groups, of those with the same line, and of those with line 0 in the native build, and the differences."""
    os.chdir(folder)
    configure(piece, source, folder)
    make_files(piece, folder)
    files = source_files(piece, source)
    flags = clang_flags(piece, source, folder)
    native = ["clang-19", f"-{level}", *NATIVE, f"-I{TOOLS}", *flags, "-o", f"{folder}/native", *files]
    native += [f"{TOOLS}/external_functions.c", f"{HERE}/store_tracer.c", "-lpthread"]
    subprocess.run(native, check=True, stderr=subprocess.DEVNULL)
    ran = Native(f"{folder}/native", folder, piece.arguments)
    arguments = ["--args", *piece.arguments] if piece.arguments else []
    same, merged, different = 0, 0, []
    with Session(
        Request(files, flags, [f"-{level}", *piece.options], [[]], None, folder, False, arguments), Progress()
    ) as session:
        checked = session.check([], coverage=False)
        own = (os.path.realpath(source) + os.sep, os.path.realpath(HERE) + os.sep)
        tried = reported_bytes(session, checked.path, checked.groups)[:most]
        for group, byte in tried:
            place = session.places.first(group.path)
            named = session.program.object_at(byte.address)
            if named is None:
                raise Differs(f"no object is at {byte.address:#x}")
            item, offset = named
            native_line = ran.line(item.name, offset, byte.before, own)
            ours = f"{os.path.realpath(place.file)}:{place.line}" if place else "nothing"
            if native_line == ours:
                same += 1
            elif native_line.endswith(":0"):
                merged += 1
            else:
                different.append(f"{ours}, native: {native_line} ({item.name}+{offset}, change {byte.before + 1})")
    return len(checked.groups), same, merged, different


def main() -> int:
    """Compares the lines of each piece; returns 0 if none differs."""
    parser = argparse.ArgumentParser(description=__doc__, formatter_class=argparse.RawDescriptionHelpFormatter)
    parser.add_argument("--folder", default=os.path.expanduser("~/.cache/hippo-debian"), help="where packages are kept")
    parser.add_argument("--level", default="O1")
    parser.add_argument("--most", type=int, default=10, help="groups of each piece")
    parser.add_argument("names", nargs="*")
    options = parser.parse_args()
    packages, failed = Packages(options.folder), 0
    for piece in PIECES:
        if (options.names and piece.name not in options.names) or piece.needs_libpmem or "--pool" in piece.options:
            continue
        source = packages.source(piece.package)
        if not source:
            print(f"skipped: the package {piece.package} could not be fetched")
            continue
        with tempfile.TemporaryDirectory() as folder:
            groups, same, merged, different = compare(piece, source, options.level, options.most, folder)
        failed += len(different)
        without = f", {merged} more have line 0 natively" if merged else ""
        print(
            f"{piece.name} ({piece.package}): {groups} groups, {same} of {same + len(different)} tried have the same line{without}",
            flush=True,
        )
        for text in different:
            print(f"  differs: {text}", flush=True)
    return 1 if failed else 0


if __name__ == "__main__":
    sys.exit(main())
