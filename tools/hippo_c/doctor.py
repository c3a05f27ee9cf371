"""The command doctor: what hippo-c needs, what is there, and how to install what is missing; then a first check."""
from __future__ import annotations

import argparse
import os
import re
import shutil
import subprocess
import sys
import tempfile
import time
from typing import NamedTuple

from . import about, running
from .trouble import Trouble

FIRST = "#include <hippo.h>\nPERSISTENT long word;\nint main(void) {\n  word = 1;\n  return 0;\n}\n"
ANSWER = "store of 8 bytes to 'word' is not durable at the return of main"


class Need(NamedTuple):
    """A program, the package of Debian that has it, what it is for, and whether nothing works without it."""

    program: str
    package: str
    purpose: str
    required: bool = True


NEEDS = (
    Need("clang-19", "clang-19", "compiles the C"),
    Need("opt-19", "llvm-19", "runs passes of LLVM"),
    Need("llvm-link-19", "llvm-19", "links several files"),
    Need("llvm-as-19", "llvm-19", "looks over the lowered text"),
    Need("llc-19", "llvm-19", "writes repaired object files, and the engine of crash and explore"),
    Need("llvm-nm-19", "llvm-19", "crash --debug", required=False),
    Need("gdb", "gdb", "crash --debug", required=False),
    Need("rr", "rr", "crash --debug --rr", required=False),
    Need("patch", "patch", "applies what --diff writes", required=False),
)


def doctor(_options: argparse.Namespace) -> int:
    """Prints a line for each need and for the first check: 0 if all that is required works, otherwise 2."""
    works = [say(sys.version_info >= (3, 10), f"Python {sys.version.split()[0]}", "3.10 or later is needed")]
    works += [say_need(need) for need in NEEDS]
    works.append(say_program())
    if all(works):
        works.append(say_first_check())
    return 0 if all(works) else 2


def say(works: bool, what: str, cure: str, required: bool = True) -> bool:
    """Prints a line; whether what is required works."""
    mark = "ok" if works else "missing" if required else "optional"
    print(f'{mark + ":":10}{what}' + ("" if works else f"; {cure}"))
    return works or not required


def say_need(need: Need) -> bool:
    """The line of a program."""
    path = shutil.which(need.program)
    return say(
        path is not None,
        f"{need.program} {version_of(path)}".rstrip() + f", {need.purpose}",
        f"Debian: apt-get install {need.package}",
        need.required,
    )


def version_of(path: str | None) -> str:
    """The version that a program says."""
    if path is None:
        return ""
    try:
        ran = subprocess.run(
            [path, "--version"], stdin=subprocess.DEVNULL, stdout=subprocess.PIPE, stderr=subprocess.DEVNULL, timeout=60
        )
    except (OSError, subprocess.TimeoutExpired):
        return ""
    found = re.search(rb"\d+(?:\.\d+)+", ran.stdout)
    return found[0].decode() if found else ""


def say_program() -> bool:
    """The line of the hippo that runs."""
    try:
        path = running.hippo_program()
    except Trouble as trouble:
        return say(False, str(trouble), trouble.hint)
    return say(
        os.access(path, os.X_OK),
        f'hippo at {path}, proved: {about.program().get("proved", "unknown")}',
        "HIPPO_PROGRAM names no program",
    )


def say_first_check() -> bool:
    """The line of a check of a small program with one bug."""
    start = time.monotonic()
    with tempfile.TemporaryDirectory(prefix="hippo-c-") as folder:
        path = os.path.join(folder, "first.c")
        with open(path, "w", encoding="utf-8") as file:
            file.write(FIRST)
        command = [sys.executable, "-B", os.path.join(running.TOOLS, "hippo-c"), "check", path]
        ran = running.tool(command)
    notes = ran.stderr.decode("utf-8", "replace").strip().splitlines()
    said = next(
        (line for line in notes if " error: " in line), notes[-1] if notes else f"it ended with {ran.returncode}"
    )
    is_right = ran.returncode == 1 and ANSWER in ran.stdout.decode("utf-8", "replace")
    return say(
        is_right, f"a first check, {time.monotonic() - start:.1f} s", f"it did not find the missing flush: {said}"
    )
