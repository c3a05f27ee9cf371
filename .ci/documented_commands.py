#!/usr/bin/env python3
"""Runs the commands of the pages that no other script runs, as they are written, and compares the pages with what they describe.

`.ci/pages_and_exit_codes.sh` runs the `console` blocks. This script runs the lines of the `sh` blocks, except those in NOT_RUN, and the commands
in COMMANDS, which stand in the text. The options and commands that pages list must be those of the programs; files, edits and headings that pages
name must exist. Without the tools of LLVM 19 it skips the commands that need them; where CI is set, these then count as failed."""

from __future__ import annotations

import glob
import os
import re
import shutil
import subprocess
import sys
import tempfile
from dataclasses import dataclass
from pathlib import Path
from typing import Iterator

TOP = Path(__file__).resolve().parent.parent
PAGES = [
    TOP / "README.md",
    TOP / "CONTRIBUTING.md",
    *sorted(TOP.glob("docs/*.md")),
    TOP / "bench/README.md",
    *sorted(TOP.glob("examples/*/README.md")),
]
# Where the commands of a page run, if not in the page's own folder. A command that begins with a dot runs at the top.
FOLDERS = {
    "README.md": "examples",
    "docs/COMMANDS.md": "examples",
    "docs/FROM_C.md": ".",
    "docs/HIPPO_C.md": "examples/store",
}
OF_USERS = "an example of files that each user has"
FETCHES = "it fetches the source of PMDK, and takes an hour"
NOT_RUN = {
    ".ci/run --quick": "it takes minutes",
    "hippo-c explore store.c driver.c --inputs inputs --time 60 --corpus corpus": OF_USERS,
    "tools/tests/debian/pmdk/run_programs.py": FETCHES,
    "tools/tests/debian/pmdk/run_tests.py": FETCHES,
    "tools/tests/debian/pmdk/run_bugs.py": FETCHES,
    "hippo-c check FILE... [OPTIONS] [--args WORD...] [-- CLANG-ARGUMENTS...]": "a synopsis",
}
CLANG_TOOLS = ("clang-19", "opt-19", "llc-19", "llvm-link-19", "llvm-extract-19")
IN_TEXT = re.compile(r"`([^`\n]+(?:\n[^`\n]+)*)`")
FILE = re.compile(r"(?:docs|tools|bench|examples|\.ci)/[\w./-]+|crates/[\w./*-]+|[A-Z_]+\.md")
EDIT = re.compile(r"(hip_\w+)/(\w+)")
OPTION = re.compile(r"(?<![\w-])--[a-z][a-z0-9-]+")


@dataclass
class InText:
    """A command in the text of a page, the folder where it runs, what comes before it, and its exit codes."""

    page: str
    command: str
    folder: str = "."
    before: str = "true"
    codes: tuple[int, ...] = (0,)


LOWER_PUBLIC = "tools/lower --public FILE examples/from_c/log.c >log.ll 2>notes"
COMMANDS = [
    InText("CONTRIBUTING.md", 'grep -rn "abbrev pub is_turn" crates/*/specs'),
    InText("CONTRIBUTING.md", "python3 tools/contract_sizes.py", codes=(0, 1)),
    InText("CONTRIBUTING.md", "python3 tools/reading_list.py"),
    InText("docs/FROM_C.md", "hippo record undo.ll 3 0 1 30 1 2 200 2 7 100", "examples/from_c"),
    InText("docs/FROM_C.md", "sed s/llvm.x86.clwb/llvm.x86.sse2.clflush/", before="exec <examples/from_c/log.ll"),
    InText(
        "docs/FROM_C.md",
        "opt-19 -mtriple=x86_64-pc-linux-gnu -passes=internalize -internalize-public-api-file=FILE log.ll -o log.bc",
        before=LOWER_PUBLIC,
    ),
    InText("docs/FROM_C.md", "llvm-extract-19 --delete --func=main -S -o part.ll log.ll", before=LOWER_PUBLIC),
]


class Room:
    """A copy of the folders in which commands run."""

    def __init__(self, folder: Path) -> None:
        self.folder = folder
        shutil.copytree(TOP / "examples", folder / "examples")
        for name in ("tools", "crates", "docs", ".ci", "hippo"):
            (folder / name).symlink_to(TOP / name)
        self.environment = {
            **os.environ,
            "PATH": f"{TOP}/tools:{os.environ['PATH']}",
            "TOP": str(TOP),
            "PYTHONDONTWRITEBYTECODE": "1",
        }

    def run(self, command: str, folder: str) -> subprocess.CompletedProcess[str]:
        """Runs a command by a shell in which `hippo` is the launcher of this repository."""
        script = f'hippo() {{ "$TOP/hippo" "$@"; }}\n{command}\n'
        return subprocess.run(
            ["bash", "-euc", script],
            cwd=self.folder / folder,
            env=self.environment,
            stdin=subprocess.DEVNULL,
            capture_output=True,
            text=True,
            errors="replace",
            check=False,
        )


class Cases:
    """How many cases passed and failed."""

    def __init__(self) -> None:
        self.passed = self.failed = 0

    def count(self, name: str, wrong: str) -> None:
        """Counts a case, which passed if nothing is wrong."""
        if wrong:
            self.failed += 1
            print(f"case: {name}: {wrong}")
        else:
            self.passed += 1


def text_of(page: Path) -> str:
    """The text of a page."""
    return page.read_text(encoding="utf-8")


def name_of(page: Path) -> str:
    """The path of a page below the top."""
    return page.relative_to(TOP).as_posix()


def outside_blocks(text: str) -> str:
    """The text without its fenced blocks."""
    return re.sub(r"^```.*?^```$", "", text, flags=re.S | re.M)


def in_text(page: Path) -> Iterator[str]:
    """Each piece of code in the text of a page, with single spaces."""
    for found in IN_TEXT.finditer(outside_blocks(text_of(page))):
        yield " ".join(found[1].split())


def needs_clang(command: str) -> bool:
    """Whether a command needs the tools of LLVM 19."""
    return bool(re.search(r"-19\b|\blower\b|\bhippo-c\b", command))


def in_blocks() -> Iterator[InText]:
    """The lines of the `sh` blocks, each of which is a command."""
    for page in PAGES:
        for block in re.findall(r"^```sh\n(.*?)^```$", text_of(page), re.S | re.M):
            for line in (re.sub(r"\s+#.*", "", line) for line in block.splitlines()):
                if line and line not in NOT_RUN:
                    at_top = re.match(r"\.(?!\.)", line)
                    yield InText(
                        name_of(page), line, "." if at_top else FOLDERS.get(name_of(page), name_of(page.parent))
                    )


def run_commands(room: Room, cases: Cases) -> None:
    """Runs the `sh` blocks, each line by itself, and the commands in the text."""
    has_clang = all(map(shutil.which, CLANG_TOOLS))
    skipped = 0
    for given in COMMANDS:
        is_there = given.command in set(in_text(TOP / given.page))
        cases.count(f"{given.page}: {given.command}", "" if is_there else "the page no longer has this command")
    for given in [*in_blocks(), *COMMANDS]:
        if not has_clang and needs_clang(f"{given.before} {given.command}"):
            skipped += 1
            continue
        ran = room.run(f"{given.before}\n{given.command}", given.folder)
        said = (ran.stderr.strip().splitlines() or ["nothing on standard error"])[-1]
        cases.count(
            f"{given.page}: {given.command}", "" if ran.returncode in given.codes else f"exit {ran.returncode}, {said}"
        )
    if skipped:
        print(f"documented commands: {skipped} skipped: the tools of LLVM 19 are not installed")
        cases.failed += skipped if os.environ.get("CI") else 0


def differ(found: set[str], wanted: set[str]) -> str:
    """What one of two sets lacks, if anything."""
    lacking, extra = sorted(wanted - found), sorted(found - wanted)
    return "; ".join(
        ([f"it lacks {' '.join(lacking)}"] if lacking else []) + ([f"there is no {' '.join(extra)}"] if extra else [])
    )


def options_of(room: Room, *words: str) -> set[str]:
    """The long options that a program's help lists, without those that each program has."""
    return set(OPTION.findall(room.run(f"COLUMNS=200 {' '.join(words)} --help", ".").stdout)) - {"--help", "--version"}


def compare_options(room: Room, cases: Cases) -> None:
    """The options in the pages are those of `tools/lower` and `hippo-c`."""
    page = text_of(TOP / "docs/FROM_C.md")
    rows = set(re.findall(r"^\| `(--[a-z][a-z0-9-]+)", page.split("## The compile line")[1].split("## ")[0], re.M))
    cases.count("docs/FROM_C.md: the options of tools/lower", differ(rows, options_of(room, "tools/lower")))
    of_hippo_c = {"--args"}
    for command in ("check", "run", "repair", "crash", "explore", "pool", "suggest-commits", "install"):
        of_hippo_c |= options_of(room, "tools/hippo-c", command)
    known = of_hippo_c | rows | options_of(room, "./hippo")
    named = {option for code in in_text(TOP / "docs/HIPPO_C.md") for option in OPTION.findall(code)}
    cases.count("docs/HIPPO_C.md: each option exists", differ(named & known, named))
    for manual, wanted in (("hippo-c.1", of_hippo_c | {"--version"}), ("hippo.1", {"--limit", "--base"})):
        written = set(OPTION.findall(re.sub(r"\\f.", "", text_of(TOP / "docs/man" / manual)).replace("\\-", "-")))
        cases.count(f"docs/man/{manual}: its options", differ(written, wanted))


def compare_commands(room: Room, cases: Cases) -> None:
    """The commands in docs/COMMANDS.md and in the manual page are those of the launcher's help and of the program's usage text."""
    of_help = set(re.findall(r"^  (\w+) .*  hippo \w", room.run("hippo --help", ".").stdout, re.M))
    of_usage = set(re.findall(r"^\s*(?:usage: )?hippo (\w+)", room.run("hippo 2>&1 || true", ".").stdout, re.M)) - {
        "usage"
    }
    of_table = set(re.findall(r"^\| `hippo (\w+)", text_of(TOP / "docs/COMMANDS.md"), re.M))
    of_manual = set(re.findall(r'^\.BI "(\w+) "', text_of(TOP / "docs/man/hippo.1"), re.M))
    for name, found in (("the usage text", of_usage), ("docs/COMMANDS.md", of_table), ("docs/man/hippo.1", of_manual)):
        cases.count(f"{name}: its commands", differ(found, of_help))


def anchor(heading: str) -> str:
    """The anchor of a heading."""
    return re.sub(r"[^\w -]", "", heading.strip().lower()).replace(" ", "-")


def compare_names(cases: Cases) -> None:
    """The files, edits, pages and headings that pages name exist."""
    for page in PAGES:
        missing = set()
        for code in in_text(page):
            if FILE.fullmatch(code) and not re.search(r"NAME|CRATE|/out$", code):
                places = (TOP, page.parent, TOP / "docs")
                if not any(glob.glob(str(place / code)) for place in places):
                    missing.add(code)
            edit = EDIT.fullmatch(code)
            if edit and not any(
                (TOP / "crates" / edit[1] / place).exists() for place in (f"must-fail/{edit[2]}.edit", edit[2])
            ):
                missing.add(code)
        for path, heading in re.findall(r"\]\(([^)#]*)#([^)]+)\)", text_of(page)):
            target = (page.parent / path) if path else page
            if not target.exists() or heading not in map(anchor, re.findall(r"^#+ (.*)$", text_of(target), re.M)):
                missing.add(f"{path}#{heading}")
        cases.count(f"{name_of(page)}: what it names", f"there is no {', '.join(sorted(missing))}" if missing else "")


def main() -> int:
    """Runs all cases; returns 0 if they passed, otherwise 1."""
    cases = Cases()
    with tempfile.TemporaryDirectory(prefix="hippo-pages-") as folder:
        room = Room(Path(folder))
        run_commands(room, cases)
        compare_options(room, cases)
        compare_commands(room, cases)
    compare_names(cases)
    print(f"documented commands: {cases.passed} cases passed, {cases.failed} failed")
    return 1 if cases.failed else 0


if __name__ == "__main__":
    sys.exit(main())
