#!/usr/bin/env python3
"""SQLite's amalgamation, unchanged, over a persistent heap: it is lowered, and its run prints what the native build prints.

The source is fetched from Debian's package into a folder; `configure` and `make sqlite3.c` make the amalgamation, which needs tclsh. It prints the
time and the memory of each step; the exit code is 1 if the outputs differ."""
from __future__ import annotations

import argparse
import os
import resource
import subprocess
import sys
import time

sys.dont_write_bytecode = True
from packages import Packages  # noqa: E402

HERE = os.path.dirname(os.path.abspath(__file__))
TOP = os.path.abspath(os.path.join(HERE, "../../.."))
DEFINED = [
    "-DSQLITE_ENABLE_MEMSYS5",
    "-DSQLITE_THREADSAFE=0",
    "-DSQLITE_OMIT_LOAD_EXTENSION",
    "-DSQLITE_DEFAULT_MEMSTATUS=0",
    "-DLONGDOUBLE_TYPE=double",
]


def step(name: str, words: list[str], folder: str, codes: tuple[int, ...] = (0,)) -> str:
    """What a command prints; a line says how long it took and how much memory it needed."""
    start, before = time.monotonic(), resource.getrusage(resource.RUSAGE_CHILDREN)
    ran = subprocess.run(words, cwd=folder, stdin=subprocess.DEVNULL, capture_output=True, text=True, check=False)
    used = resource.getrusage(resource.RUSAGE_CHILDREN)
    seconds = used.ru_utime + used.ru_stime - before.ru_utime - before.ru_stime
    print(
        f"| {name} | {time.monotonic() - start:.1f} s | {seconds:.1f} s of processors | at most {used.ru_maxrss // 1024:,} MiB so far |",
        flush=True,
    )
    if ran.returncode not in codes:
        raise SystemExit(f"{name}: exit {ran.returncode}: {(ran.stderr or ran.stdout)[-3000:]}")
    return ran.stdout


def amalgamation(source: str, folder: str) -> None:
    """Makes sqlite3.c and sqlite3.h in a folder."""
    if not os.path.isfile(f"{folder}/sqlite3.c"):
        step("configure", [f"{source}/configure", "--disable-tcl"], folder)
        step("make sqlite3.c", ["make", "sqlite3.c"], folder)


def main() -> int:
    """Runs both builds; returns 0 if they print the same."""
    parser = argparse.ArgumentParser(description=__doc__, formatter_class=argparse.RawDescriptionHelpFormatter)
    parser.add_argument("--folder", default=os.path.expanduser("~/.cache/hippo-debian"), help="where packages are kept")
    options = parser.parse_args()
    source = Packages(options.folder).source("sqlite3")
    if source is None:
        print("skipped: the package sqlite3 could not be fetched")
        return 0
    folder = os.path.join(options.folder, "amalgamation")
    os.makedirs(folder, exist_ok=True)
    amalgamation(source, folder)
    files = [f"{HERE}/sqlite.c", f"{folder}/sqlite3.c"]
    clang = ["clang-19", "-O1", "-w", "-mclwb", "-mclflushopt", f"-I{TOP}/tools", f"-I{folder}", *DEFINED]
    step("native build", [*clang, "-o", "native", *files, f"{TOP}/tools/external_functions.c", "-lm"], folder)
    native = step("native run", ["./native"], folder)
    hippo_c = [sys.executable, "-B", f"{TOP}/tools/hippo-c"]
    words = [*files, f"-I{folder}", *DEFINED, "--file-calls", "--single-thread", "--limit", "100000000000"]
    lowered = step("lower and run", [*hippo_c, "run", *words], folder)
    step("run again", [*hippo_c, "run", *words], folder)
    checked = step("check", [*hippo_c, "check", *words, "--groups", "3", "--no-coverage"], folder, (0, 1))
    print("\n".join(checked.splitlines()[-12:]))
    print("the same output" if lowered == native else f"FAILED: native {native!r}, hippo {lowered!r}")
    return 0 if lowered == native else 1


if __name__ == "__main__":
    sys.exit(main())
