#!/usr/bin/env python3
"""Real libraries with their own builds, unchanged, through hippo-c: by their compile_commands.json, or compiled by `hippo-c cc`.

Sources are fetched from Debian's packages into a folder; nothing of them is part of this repository. Each library is configured by its own
build, and checked with a driver of this folder that puts its data into persistent memory. The native build and `hippo-c run` must print
the same; `check --fix` must leave at most a tenth of the suggestions by hand; after `repair --for` of one file the run must have no
report of what it repaired; `crash --debug` must write an image and its program. It prints a row for each library; the exit code is 1 if
something differs."""
from __future__ import annotations

import argparse
import json
import os
import shutil
import subprocess
import sys
import tempfile
import time
from typing import NamedTuple

sys.dont_write_bytecode = True
from packages import Packages  # noqa: E402
from steps import Differs  # noqa: E402

HERE = os.path.dirname(os.path.abspath(__file__))
TOP = os.path.abspath(os.path.join(HERE, "../../.."))
HIPPO_C = [sys.executable, "-B", f"{TOP}/tools/hippo-c"]
MOST_BY_HAND = 0.1
HEADINGS = ("library", "files", "check", "reports", "groups", "suggestions", "by hand", "added", "after")


class Build(NamedTuple):
    """A library: its package, the commands that configure and make it in its own folder, the FILEs for hippo-c, the part that is
    repaired, and arguments for clang."""

    package: str
    commands: tuple[tuple[str, ...], ...]
    files: tuple[str, ...]
    part: str
    clang: tuple[str, ...] = ()


WRAPPER = f"CC={sys.executable} -B {TOP}/tools/hippo-c cc"
BUILDS = (
    Build(
        "jansson",
        (
            ("cmake", "-S", ".", "-B", "build", "-DCMAKE_EXPORT_COMPILE_COMMANDS=ON", "-DJANSSON_BUILD_DOCS=OFF"),
            ("make", "-C", "build", "jansson"),
        ),
        ("-p", "build", "--only", "^src/"),
        "src/hashtable.c",
        ("-Ibuild/include", "-DVALGRIND"),
    ),
    Build(
        "libdatrie",
        (("./configure", "--disable-shared", "--disable-doxygen-doc", WRAPPER), ("make", "-C", "datrie")),
        ("datrie/.libs/libdatrie.a",),
        "datrie/darray.c",
        ("-I.",),
    ),
    Build(
        "libyaml",
        (("./configure", "--disable-shared", WRAPPER), ("make", "-C", "src")),
        ("src/.libs/libyaml.a",),
        "src/api.c",
        ("-Iinclude",),
    ),
)


def run(words: list[str], folder: str, codes: tuple[int, ...] = (0,)) -> str:
    """What a command prints, which must end with one of the codes."""
    ran = subprocess.run(words, cwd=folder, stdin=subprocess.DEVNULL, capture_output=True, text=True, check=False)
    if ran.returncode not in codes:
        raise Differs(f'{" ".join(words)[:200]}: exit {ran.returncode}: {(ran.stderr or ran.stdout)[-800:]}')
    return ran.stdout


def prepared(build: Build, source: str, folder: str) -> list[str]:
    """Configures and makes a library in a copy; the words that name the program for hippo-c."""
    shutil.copytree(source, folder)
    for command in build.commands:
        run(list(command), folder)
    driver, heap = f"{HERE}/{build.package}.c", f"{HERE}/persistent_heap.c"
    return [driver, heap, *build.files, "--ignore-output", "--single-thread", "--file-calls", f"-I{HERE}", *build.clang]


def native(build: Build, words: list[str], folder: str) -> str:
    """What the native build of the program prints, with the library that its own build made."""
    libraries = run(["find", ".", "-name", f"lib{build.package.removeprefix('lib')}*.a"], folder).split()
    flags = [word for word in words if word.startswith(("-I", "-D"))]
    externals = f"{TOP}/tools/external_functions.c"
    command = ["clang-19", "-O1", "-w", "-mclwb", "-mclflushopt", f"-I{TOP}/tools", *flags, "-fno-builtin"]
    run([*command, "-o", "native", *words[:2], externals, *libraries], folder)
    return run(["./native"], folder)


def attempt(build: Build, source: str, folder: str) -> list[object]:
    """The row of a library."""
    words = prepared(build, source, folder)
    printed = run([*HIPPO_C, "run", *words], folder)
    if printed != native(build, words, folder):
        raise Differs(f"hippo prints {printed!r}")
    start = time.monotonic()
    answer = json.loads(run([*HIPPO_C, "check", *words, "--json", "-"], folder, (1,)))
    seconds = time.monotonic() - start
    fixed = json.loads(
        run([*HIPPO_C, "check", *words, "--fix", "--json", "fixed.json", "--quiet"], folder, (1,))
        and text_of(f"{folder}/fixed.json")
    )
    groups = fixed["inputs"][0]["groups"]
    suggestions = [group["suggestion"] for group in groups if group["suggestion"]]
    by_hand = sum(suggestion["by_hand"] for suggestion in suggestions)
    if by_hand > MOST_BY_HAND * len(suggestions):
        raise Differs(f"{by_hand} of {len(suggestions)} suggestions are left to be made by hand")
    said = run([*HIPPO_C, "repair", *words, "--for", build.part, "-o", "part.o"], folder)
    added = next(line for line in said.splitlines() if line.startswith("added: "))
    after = next(line for line in said.splitlines() if " before, " in line)
    run([*HIPPO_C, "crash", *words, "--entries", "9", "--pick", "--debug", "image"], folder, (0, 1))
    for name in ("program", "image", "debug.gdb"):
        if not os.path.exists(f"{folder}/image/{name}"):
            raise Differs(f"crash --debug wrote no {name}")
    files = len(answer["files"])
    reports = sum(group["reports"] for group in groups)
    return [
        build.package,
        files,
        f"{seconds:.1f} s",
        reports,
        len(groups),
        len(suggestions),
        by_hand,
        added.removeprefix("added: "),
        after,
    ]


def text_of(path: str) -> str:
    """The text of a file."""
    with open(path, encoding="utf-8") as file:
        return file.read()


def main() -> int:
    """Tries each library; returns 0 if all of them pass."""
    parser = argparse.ArgumentParser(description=__doc__, formatter_class=argparse.RawDescriptionHelpFormatter)
    parser.add_argument("--folder", default=os.path.expanduser("~/.cache/hippo-debian"), help="where packages are kept")
    parser.add_argument("names", nargs="*", help="the libraries; without names, all of them")
    options = parser.parse_args()
    packages, failed = Packages(options.folder), 0
    print("| " + " | ".join(HEADINGS) + " |")
    for build in BUILDS:
        if options.names and build.package not in options.names:
            continue
        source = packages.source(build.package)
        if source is None:
            print(f"skipped: the package {build.package} could not be fetched")
            continue
        with tempfile.TemporaryDirectory(prefix="hippo-builds-") as room:
            try:
                row = attempt(build, source, f"{room}/{build.package}")
                print("| " + " | ".join(map(str, row)) + " |", flush=True)
            except Differs as difference:
                failed += 1
                print(f"FAILED {build.package}: {difference}", flush=True)
    return 1 if failed else 0


if __name__ == "__main__":
    sys.exit(main())
