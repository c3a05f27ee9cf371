#!/usr/bin/env python3
"""How long tools/lower takes for the pieces of C++: processor time at -O1, second call, beside that of `clang++ -O1 -c` of their files.

The pieces are those of cpp_pieces.py, and lie in the folder in which programs.py keeps them. Times are processor time of all programs
that run, user and system together; each is the least of several. The exit code is 1 if a piece takes more than GOAL times the time of
clang and a second."""
from __future__ import annotations

import argparse
import os
import resource
import sys
import tempfile
from collections.abc import Callable

sys.dont_write_bytecode = True
from cpp_pieces import CPP_PIECES  # noqa: E402
from packages import Packages  # noqa: E402
from pieces import Piece  # noqa: E402
from programs import sources_of  # noqa: E402
from steps import Differs, Setting, clang_flags, lowered, run, source_files  # noqa: E402

TOP = os.path.abspath(os.path.join(os.path.dirname(__file__), "../../.."))
GOAL = 3
HEADINGS = ("piece", "clang++ -O1 -c, s", "tools/lower, s", "less a second, times")


def spent(action: Callable[[], object]) -> float:
    """The processor time of the programs that an action runs, in seconds."""
    before = resource.getrusage(resource.RUSAGE_CHILDREN)
    action()
    after = resource.getrusage(resource.RUSAGE_CHILDREN)
    return after.ru_utime - before.ru_utime + after.ru_stime - before.ru_stime


def compile_files(piece: Piece, source: str, folder: str) -> None:
    """Compiles the files of a piece natively, each one alone."""
    for file in source_files(piece, source):
        words = ["-O1", "-c", "-mclwb", "-mclflushopt", f"-I{TOP}/tools", *clang_flags(piece, source, folder)]
        run(["clang++-19", *words, "-o", f"{folder}/native.o", file], folder)


def measured(piece: Piece, source: str, runs: int, scratch: str) -> tuple[float, float]:
    """The times of clang and of tools/lower for a piece. The first call of tools/lower fills the cache of the runtime."""
    folder = os.path.join(scratch, piece.name)
    os.makedirs(folder)
    setting = Setting(TOP, "", scratch, None)
    lowered(piece, source, "O1", setting, folder)
    times = [
        (
            spent(lambda: compile_files(piece, source, folder)),
            spent(lambda: lowered(piece, source, "O1", setting, folder)),
        )
        for _ in range(runs)
    ]
    return min(native for native, _ in times), min(ours for _, ours in times)


def main() -> int:
    """Prints a row for each piece; 1 if one is above the goal, or could not be tried."""
    words = argparse.ArgumentParser(description=__doc__, formatter_class=argparse.RawDescriptionHelpFormatter)
    words.add_argument("--folder", default=os.path.expanduser("~/.cache/hippo-debian"), help="where packages are kept")
    words.add_argument("--runs", type=int, default=3, help="how often each time is taken; the least counts")
    words.add_argument("names", nargs="*", help="the pieces; without names, all of them")
    given = words.parse_args()
    pieces = [piece for piece in CPP_PIECES if not given.names or piece.name in given.names]
    sources = sources_of(Packages(given.folder), pieces)
    missed = len([piece for piece in pieces if piece.package not in sources])
    print("| " + " | ".join(HEADINGS) + " |\n|" + "---|" * len(HEADINGS))
    with tempfile.TemporaryDirectory() as scratch:
        for piece in pieces:
            if piece.package in sources:
                missed += not print_row(piece, sources[piece.package], given.runs, scratch)
    print(f"above {GOAL} times and a second, or not tried: {missed} of {len(pieces)}")
    return 1 if missed else 0


def print_row(piece: Piece, source: str, runs: int, scratch: str) -> bool:
    """Prints the row of a piece; whether it is within the goal."""
    try:
        native, ours = measured(piece, source, runs, scratch)
    except Differs as difference:
        print(f"FAILED {piece.name}: {difference}", flush=True)
        return False
    print(f"| {piece.name} | {native:.2f} | {ours:.2f} | {(ours - 1) / native:.2f} |", flush=True)
    return ours - 1 <= GOAL * native


if __name__ == "__main__":
    sys.exit(main())
