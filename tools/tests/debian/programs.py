#!/usr/bin/env python3
"""Real C and C++, unchanged, through tools/lower and hippo.

Sources are fetched from Debian's packages into a folder; nothing of them is part of this repository. Each piece is compiled
with a driver of this folder. At each level the native build must print what `hippo run` prints; the run is recorded and
repaired, `rerun` must say `after 0`, and the repaired text must print the same in hippo and built for the processor.
It prints a line for each piece and level, and for each package that it skips; the exit code is 1 if something differs.
"""
import argparse
import os
import sys
import tempfile
from concurrent.futures import ThreadPoolExecutor

sys.dont_write_bytecode = True
from cpp_pieces import CPP_PIECES  # noqa: E402
from packages import Packages  # noqa: E402
from pieces import PIECES, Piece  # noqa: E402
from steps import LEVELS, Differs, Setting, pass_through  # noqa: E402

PMEM = ["libpmem1", "libpmem-dev", "libpmem2", "libpmem2-dev", "libndctl6", "libdaxctl1", "libkmod2"]
HEADINGS = (
    "piece",
    "package",
    "lines of C",
    "level",
    "lowered lines",
    "seconds",
    "reports",
    "flushes",
    "fences",
    "clones",
)


def parse() -> argparse.Namespace:
    """The options of the command line."""
    top = os.path.abspath(os.path.join(os.path.dirname(__file__), "../../.."))
    parser = argparse.ArgumentParser(description=__doc__, formatter_class=argparse.RawDescriptionHelpFormatter)
    parser.add_argument("--top", default=top, help="the repository whose tools/lower is tried")
    parser.add_argument(
        "--hippo", default=os.environ.get("HIPPO_PROGRAM", f"{top}/out/hippo"), help="the program hippo (out/hippo)"
    )
    parser.add_argument(
        "--folder",
        default=os.path.expanduser("~/.cache/hippo-debian"),
        help="where packages are kept from one run to the next",
    )
    parser.add_argument("--levels", nargs="+", default=LEVELS)
    parser.add_argument("--jobs", type=int, default=2)
    parser.add_argument("--keep", help="keep the files that are made in this folder")
    parser.add_argument("names", nargs="*", help="the pieces; without names, all of them")
    return parser.parse_args()


def sources_of(packages: Packages, pieces: list[Piece]) -> dict[str, str]:
    """The folder of each package that could be fetched; prints the name of each other one."""
    found = {}
    for package, is_built in dict.fromkeys((piece.package, piece.is_built) for piece in pieces):
        folder = packages.binaries(package.split()) if is_built else packages.source(package)
        if folder:
            found[package] = folder
        else:
            print(f"skipped: the package {package} could not be fetched")
    return found


def attempt(piece: Piece, source: str, level: str, setting: Setting) -> tuple[bool, str]:
    """Whether a piece goes through at a level, and its line."""
    try:
        result = pass_through(piece, source, level, setting)
    except Differs as difference:
        return False, f"FAILED {piece.name} {level}: {difference}"
    return True, "| " + " | ".join(str(value) for value in (piece.name, piece.package, *result)) + " |"


def main() -> int:
    """Tries each piece at each level; returns 0 if all of them pass."""
    options = parse()
    pieces = [piece for piece in [*PIECES, *CPP_PIECES] if not options.names or piece.name in options.names]
    packages = Packages(options.folder)
    sources = sources_of(packages, pieces)
    libpmem = packages.binaries(PMEM) if any(piece.needs_libpmem for piece in pieces) else None
    if not libpmem and any(piece.needs_libpmem for piece in pieces):
        print("skipped: libpmem could not be fetched, and with it the pieces of pmdk")
    tried = [piece for piece in pieces if piece.package in sources and (libpmem or not piece.needs_libpmem)]
    print("| " + " | ".join(HEADINGS) + " |\n|" + "---|" * len(HEADINGS))
    failures = 0
    with tempfile.TemporaryDirectory() as scratch, ThreadPoolExecutor(options.jobs) as workers:
        setting = Setting(options.top, options.hippo, options.keep or scratch, libpmem)
        work = [(piece, sources[piece.package], level, setting) for piece in tried for level in options.levels]
        for passed, line in workers.map(lambda words: attempt(*words), work):
            failures += not passed
            print(line, flush=True)
    print(f"real programs: {len(work) - failures} of {len(work)} passed, {len(tried)} of {len(pieces)} pieces tried")
    return 1 if failures else 0


if __name__ == "__main__":
    sys.exit(main())
