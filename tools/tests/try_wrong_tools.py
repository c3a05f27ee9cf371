#!/usr/bin/env python3
"""Tries the wrong tools: applies each edit of the table `wrong_tools` to a copy of the repository, and runs the test that must see it.

The test of an edit must pass without it, and fail with it. A line shows each test without an edit, and each edit; docs/WRONG_TOOLS.md then
has the results. The exit code is 1 if an edit is not seen, or if a test does not pass without an edit. HIPPO_PROGRAM names the program
that the tests run; without it they run the program of this repository."""
from __future__ import annotations

import argparse
import sys
import tempfile
import threading
from concurrent.futures import ThreadPoolExecutor
from pathlib import Path

sys.dont_write_bytecode = True
sys.path.append(str(Path(__file__).resolve().parents[2] / ".ci"))
from tools_tests import as_in_the_foreground  # noqa: E402
from wrong_tools import EDITS, Edit  # noqa: E402
from wrong_tools.copies import fault_of, make_copy, run_test, with_edit  # noqa: E402
from wrong_tools.page import NOT_SEEN, seen_by, write_page  # noqa: E402


class Trial:
    """One copy for each thread, and the results so far."""

    def __init__(self, folder: Path) -> None:
        self.folder, self.own, self.lock = folder, threading.local(), threading.Lock()
        self.copies = 0
        self.results: dict[str, str] = {}
        self.wrong: list[str] = []

    def copy(self) -> Path:
        """The copy of this thread."""
        if not hasattr(self.own, "copy"):
            with self.lock:
                self.copies += 1
                number = self.copies
            self.own.copy = make_copy(self.folder / f"copy{number}")
        found: Path = self.own.copy
        return found

    def say(self, line: str, is_wrong: bool = False) -> None:
        """Prints a line, and keeps it if something is wrong."""
        with self.lock:
            print(line, flush=True)
            if is_wrong:
                self.wrong.append(line)

    def without(self, test: str) -> None:
        """Runs a test without an edit."""
        found = run_test(self.copy(), test)
        self.say(
            f"without an edit: {test} passes"
            if found.passed
            else f"without an edit: {test} does not pass\n{found.said}",
            not found.passed,
        )

    def with_edit(self, edit: Edit) -> None:
        """Runs the test of an edit with it."""
        found = with_edit(self.copy(), edit)
        with self.lock:
            self.results[edit.name] = seen_by(edit) if found.failed else NOT_SEEN
            write_page(self.results)
        self.say(
            f"{edit.name}: {edit.test} fails" if found.failed else f"{edit.name}: not seen\n{found.said}",
            not found.failed,
        )


def print_faults(edits: list[Edit]) -> int:
    """Prints the edits that do not apply; returns 0 if there is none."""
    faults = {edit.name: fault for edit in edits if (fault := fault_of(edit))}
    for name, fault in faults.items():
        print(f"{name}: {fault}")
    print(f"{len(edits)} edits, {len(edits) - len(faults)} apply")
    return 1 if faults else 0


def main() -> int:
    """Tries the edits, all or those that are named."""
    words = argparse.ArgumentParser(description=__doc__, formatter_class=argparse.RawDescriptionHelpFormatter)
    words.add_argument("--jobs", type=int, default=2, help="the number of edits that are tried in parallel")
    words.add_argument("--only-with", action="store_true", help="leave out the runs without an edit")
    words.add_argument(
        "--applies",
        action="store_true",
        help="run no test: say which edits do not change exactly one place of today's text, or make a text that does not compile",
    )
    words.add_argument("names", nargs="*", help="edits, in their order; without names, all of them")
    given = words.parse_args()
    if unknown := set(given.names) - {edit.name for edit in EDITS}:
        words.error(f'no edit is named {" ".join(sorted(unknown))}')
    as_in_the_foreground()
    by_name = {edit.name: edit for edit in EDITS}
    edits = [by_name[name] for name in given.names or by_name]
    if given.applies:
        return print_faults(edits)
    with tempfile.TemporaryDirectory(prefix="wrong-tools-") as folder:
        trial = Trial(Path(folder))
        with ThreadPoolExecutor(given.jobs) as workers:
            if not given.only_with:
                list(workers.map(trial.without, dict.fromkeys(edit.test for edit in edits)))
            list(workers.map(trial.with_edit, edits))
    seen = sum(result != NOT_SEEN for result in trial.results.values())
    print(f"{len(edits)} edits, {seen} seen, {len(trial.wrong)} wrong")
    return 1 if trial.wrong else 0


if __name__ == "__main__":
    sys.exit(main())
