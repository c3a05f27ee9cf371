#!/usr/bin/env python3
"""Runs what needs no proof: the tests of the tools, the pages and their commands, the C programs, and the tests of each crate with
`rt try --test`. They run the proved program if it is built, otherwise an unproved build, which the first part makes; HIPPO_PROGRAM names
another program. Each part prints a line with its time. The output of a part that fails comes before that line, and what a part
skips after it. The last lines say what this form leaves out, and count."""

from __future__ import annotations

import argparse
import concurrent.futures
import os
import re
import subprocess
import sys
import time
from pathlib import Path
from typing import NamedTuple

TOP = Path(__file__).resolve().parent.parent
UNPROVED = TOP / "out" / "unproved" / "hippo"
MAKE = ["./hippo", "demo", "1", "1"]
# Without the proved program each run takes long, so the longest part is first.
PARTS = {
    "the tests of the tools": [sys.executable, "-B", ".ci/tools_tests.py", "--built", "--jobs", "2"],
    "the C programs": ["bash", ".ci/from_c.sh", "--quick"],
    "the pages and exit codes": ["bash", ".ci/pages_and_exit_codes.sh", "--quick"],
    "the commands of the pages": [sys.executable, "-B", ".ci/documented_commands.py"],
    "the tracked files": [sys.executable, "-B", ".ci/repository.py"],
    "the words": [sys.executable, "-B", ".ci/vocabulary.py"],
}
LEFT_OUT = """left out, for .ci/run: the proofs and the edits that the prover must refuse; the program as two compilers build it; hostile
  input, the larger sizes of the pages, and the random programs of csmith, which need the speed of the proved program
left out, for commands of their own (CONTRIBUTING.md): failing allocations, Debian's C programs, wrong tools, random programs in number"""
# The seconds that the tests of a crate may run, with checks at run time. It only ends a test that hangs.
SECONDS = "7200"
TEST = re.compile(r"^\s*#\[test\]", re.M)
SKIPPED = re.compile(r"^.*?(?:(\d+) )?skipped: .*$", re.M)
# One `rt try` takes more than one processor, and up to 2 GiB.
AT_ONCE = max(1, len(os.sched_getaffinity(0)) * 3 // 4)


class Ran(NamedTuple):
    """How a part ended: whether it passed, and how many things it skipped."""

    passed: bool
    skipped: int


def has_tests(crate: Path) -> bool:
    """Whether a source of the crate names a test."""
    return any(TEST.search(file.read_text(encoding="utf-8")) for file in sorted(crate.glob("src/**/*.rt")))


def skips(output: str) -> tuple[list[str], int]:
    """The lines of an output that say what is skipped, and how many things they count; a line without a number counts one."""
    found = list(SKIPPED.finditer(output))
    return [line[0].strip() for line in found], sum(int(line[1] or 1) for line in found)


def part(name: str, command: list[str], folder: Path) -> Ran:
    """Runs a part, and prints how it ended and what it skipped."""
    start = time.monotonic()
    ran = subprocess.run(
        command,
        cwd=folder,
        check=False,
        stdin=subprocess.DEVNULL,
        stdout=subprocess.PIPE,
        stderr=subprocess.STDOUT,
        errors="replace",
    )
    lines, count = skips(ran.stdout)
    output = ran.stdout if ran.returncode else ""
    ended = f"{name}: {'failed' if ran.returncode else 'passed'}, {time.monotonic() - start:.0f} s"
    print("\n".join([output + ended, *(f"  {line}" for line in lines)]), flush=True)
    return Ran(ran.returncode == 0, count)


def make_program() -> list[Ran]:
    """Makes the program that the parts run, unless one is named, and names it if it is unproved."""
    if os.environ.get("HIPPO_PROGRAM"):
        return []
    made = part("the program", MAKE, TOP)
    version = subprocess.run(
        ["./hippo", "--version"], cwd=TOP, stdin=subprocess.DEVNULL, capture_output=True, text=True, check=False
    )
    if not re.search(r"^proved: yes", version.stdout, re.M):
        os.environ["HIPPO_PROGRAM"] = str(UNPROVED)
    return [made]


def main() -> int:
    """Runs each part; returns 0 if all passed, otherwise 1."""
    words = argparse.ArgumentParser(prog=".ci/quick.py", description=__doc__)
    words.add_argument("--jobs", type=int, default=AT_ONCE, help="the number of parts that run in parallel")
    jobs = words.parse_args().jobs
    start = time.monotonic()
    ran = make_program()
    parts = [(name, command, TOP) for name, command in PARTS.items()]
    tested = [crate for crate in sorted((TOP / "crates").iterdir()) if has_tests(crate)]
    parts += [(f"the tests of {crate.name}", ["rt", "try", "--test", "--seconds", SECONDS], crate) for crate in tested]
    with concurrent.futures.ThreadPoolExecutor(jobs) as pool:
        ran += pool.map(lambda given: part(*given), parts)
    passed = sum(one.passed for one in ran)
    print(LEFT_OUT)
    print(
        f"{passed} parts passed, {len(ran) - passed} failed, {sum(one.skipped for one in ran)} skipped, {time.monotonic() - start:.0f} s"
    )
    return 0 if passed == len(ran) else 1


if __name__ == "__main__":
    sys.exit(main())
