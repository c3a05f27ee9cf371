#!/usr/bin/env python3
"""Random C programs with arithmetic on addresses (`random_c`): at each level, `hippo run` must print what the native build prints, and the
trace and the reports of hippo must be those that the generator's own model of bytes and lines gives.

Several programs share a file, since most of the time goes into compiling. A line shows each program that differs, with its seed and level;
`--first SEED --count 1 --together 1 --keep FOLDER` makes the files of one program. The exit code is 1 if a program differs."""
from __future__ import annotations

import argparse
import os
import sys
import tempfile
from concurrent.futures import ProcessPoolExecutor
from functools import partial

sys.dont_write_bytecode = True
from clang_case import HIPPO  # noqa: E402
from random_c.runs import LEVELS, try_bundle  # noqa: E402


def parse() -> argparse.Namespace:
    """The words of the command line."""
    parser = argparse.ArgumentParser(description=__doc__, formatter_class=argparse.RawDescriptionHelpFormatter)
    parser.add_argument("--hippo", default=HIPPO, help="the program hippo (out/hippo)")
    parser.add_argument("--first", type=int, default=1, help="the first seed")
    parser.add_argument("--count", type=int, default=2000, help="the number of programs")
    parser.add_argument("--together", type=int, default=50, help="the number of programs in a file")
    parser.add_argument("--levels", nargs="+", default=[level[1:] for level in LEVELS])
    parser.add_argument("--jobs", type=int, default=2, help="the number of files that are tried in parallel")
    parser.add_argument(
        "--engine",
        action="store_true",
        help="also compare with the traces and reports of a native run at the addresses of hippo",
    )
    parser.add_argument("--keep", help="a folder for the files of programs, which stay there")
    return parser.parse_args()


def main() -> int:
    """Tries the programs of a range of seeds; returns 0 if none differs."""
    given = parse()
    levels = [f"-{level}" for level in given.levels]
    seeds = list(range(given.first, given.first + given.count))
    bundles = [seeds[at : at + given.together] for at in range(0, len(seeds), given.together)]
    differ: set[tuple[int, str]] = set()
    tried = 0
    with tempfile.TemporaryDirectory() as scratch, ProcessPoolExecutor(given.jobs) as workers:
        os.environ["XDG_CACHE_HOME"] = scratch
        attempt = partial(
            try_bundle,
            levels=levels,
            folder=given.keep or scratch,
            hippo=os.path.abspath(given.hippo),
            keeps=bool(given.keep),
            with_engine=given.engine,
        )
        for bundle, found in zip(bundles, workers.map(attempt, bundles)):
            tried += len(bundle)
            for one in found:
                differ.add((one.seed, one.level))
                print(f"seed {one.seed} {one.level}: {one.text}", flush=True)
            print(
                f"{tried} programs at {len(levels)} levels: {tried * len(levels) - len(differ)} the same, {len(differ)} differ",
                flush=True,
            )
    return 1 if differ else 0


if __name__ == "__main__":
    sys.exit(main())
