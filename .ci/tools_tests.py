#!/usr/bin/env python3
"""Runs the tests below tools/tests, and counts those that are skipped.

All files `test_*.py` are found, so a new file needs no entry in a list. The last lines say how many tests each reason skips, and how
many ran. A selection without a test fails. Where CI is set, the tools of LLVM 19 must be installed, since most tests are skipped
without them. Classes run in parallel, and so do the parts of a large class; the tests of a part run one after another.

usage: .ci/tools_tests.py [-k PATTERN].. [--failfast] [--jobs N] [--built] [--slowest N]"""

from __future__ import annotations

import argparse
import io
import itertools
import multiprocessing
import os
import resource
import shutil
import signal
import sys
import tempfile
import time
import unittest
from collections import Counter
from concurrent.futures import Future, ProcessPoolExecutor, as_completed
from concurrent.futures.process import BrokenProcessPool
from pathlib import Path
from typing import Any, Iterator, NamedTuple, cast
from unittest.util import strclass

sys.dont_write_bytecode = True
TESTS = Path(__file__).resolve().parent.parent / "tools" / "tests"
LLVM = ("clang-19", "opt-19", "llvm-as-19", "llvm-link-19", "llc-19")
NAME = "tests of the tools"
# How the reason begins of a test that is skipped since there is no program.
NOT_BUILT = "hippo is not built"
MOST_IN_A_PART = 6
PROCESSORS = len(os.sched_getaffinity(0))


class Took(NamedTuple):
    """How long a test took: seconds, and those of processors, with the programs that it ran."""

    test: str
    seconds: float
    processors: float


class Ran(NamedTuple):
    """How the tests of a part ended: what is said of failures, their number, the tests that each reason skips, and times."""

    said: str
    failed: int
    skipped: Counter[str]
    took: list[Took]


def now() -> tuple[float, float]:
    """The time, and the time of processors that this process and its children have had."""
    used = [resource.getrusage(who) for who in (resource.RUSAGE_SELF, resource.RUSAGE_CHILDREN)]
    return time.monotonic(), sum(one.ru_utime + one.ru_stime for one in used)


def since(start: tuple[float, float], test: str) -> Took:
    """How long a test took that started at a time."""
    seconds, processors = now()
    return Took(test, seconds - start[0], processors - start[1])


class Timed(unittest.TextTestResult):
    """Notes how long each test takes."""

    def __init__(self, stream: Any, descriptions: bool, verbosity: int) -> None:
        super().__init__(stream, descriptions, verbosity)
        self.took: list[Took] = []

    def startTest(self, test: unittest.TestCase) -> None:  # noqa: N802
        """Notes when a test starts."""
        super().startTest(test)
        self.start = now()

    def stopTest(self, test: unittest.TestCase) -> None:  # noqa: N802
        """Notes how long a test took."""
        super().stopTest(test)
        self.took.append(since(self.start, test.id()))


def missing_tools() -> list[str]:
    """The tools of LLVM 19 that are not installed."""
    return [tool for tool in LLVM if shutil.which(tool) is None]


def selected(patterns: list[str]) -> unittest.TestSuite:
    """The tests whose names have one of the patterns; all tests without patterns."""
    loader = unittest.TestLoader()
    loader.testNamePatterns = [pattern if "*" in pattern else f"*{pattern}*" for pattern in patterns] or None
    return loader.discover(str(TESTS), "test_*.py", str(TESTS))


def tests_in(suite: unittest.TestSuite) -> Iterator[unittest.TestCase]:
    """Each test of a suite."""
    for one in suite:
        if isinstance(one, unittest.TestSuite):
            yield from tests_in(one)
        else:
            yield one


def parts_of(suite: unittest.TestSuite) -> list[list[unittest.TestCase]]:
    """The tests in parts that run in parallel: each class, and each part of a large one."""
    found = []
    for _, tests in itertools.groupby(tests_in(suite), type):
        whole = list(tests)
        found += [whole[at : at + MOST_IN_A_PART] for at in range(0, len(whole), MOST_IN_A_PART)]
    return found


def skipped(result: unittest.TestResult, tests: list[unittest.TestCase]) -> Counter[str]:
    """How many tests each reason skips. A class that is skipped as a whole counts with all its tests."""
    of_class = Counter(strclass(type(test)) for test in tests)
    counts: Counter[str] = Counter()
    for test, reason in result.skipped:
        whole = str(test).removeprefix("setUpClass (").removesuffix(")")
        counts[reason] += of_class[whole] if str(test).startswith("setUpClass (") else 1
    return counts


def run_part(tests: list[unittest.TestCase], failfast: bool) -> Ran:
    """Runs tests of a class."""
    said, start = io.StringIO(), now()
    runner = unittest.TextTestRunner(said, verbosity=0, failfast=failfast, resultclass=Timed)
    result = cast(Timed, runner.run(unittest.TestSuite(tests)))
    failed = len(result.failures) + len(result.errors) + len(result.unexpectedSuccesses)
    whole = since(start, f"{strclass(type(tests[0]))}.setUpClass")
    rest = whole._replace(
        seconds=whole.seconds - sum(one.seconds for one in result.took),
        processors=whole.processors - sum(one.processors for one in result.took),
    )
    return Ran(said.getvalue() if failed else "", failed, skipped(result, tests), [*result.took, rest])


def as_in_the_foreground() -> None:
    """Lets programs that a test starts be interrupted. A shell starts this script with SIGINT ignored in its background, and they would inherit that."""
    for number in (signal.SIGINT, signal.SIGQUIT, signal.SIGHUP):
        if signal.getsignal(number) is signal.SIG_IGN:
            signal.signal(number, lambda *_: None)


def begin(room: str) -> None:
    """Begins a process that runs tests, with a cache of its own."""
    os.environ["XDG_CACHE_HOME"] = os.path.join(room, str(os.getpid()))
    as_in_the_foreground()


# The parts of the tests, which the processes that run them have from this one.
PARTS: list[list[unittest.TestCase]] = []


def run_number(number: int, failfast: bool) -> Ran:
    """Runs the part with a number."""
    return run_part(PARTS[number], failfast)


def outcome(done: Future[Ran], tests: list[unittest.TestCase]) -> Ran:
    """How the tests of a part ended, also where they ended their process."""
    try:
        return done.result()
    except BrokenProcessPool:
        name = strclass(type(tests[0]))
        return Ran(f"ERROR: {name} ({name})\nits process ended\n", 1, Counter(), [])


def run_all(parts: list[list[unittest.TestCase]], failfast: bool, jobs: int) -> list[Ran]:
    """Runs parts of the tests, says what fails on standard error, and returns how they ended. With failfast the first failure is the last."""
    PARTS[:] = parts
    ran = []
    with tempfile.TemporaryDirectory() as room, ProcessPoolExecutor(
        jobs, multiprocessing.get_context("fork"), begin, (room,)
    ) as pool:
        started = {pool.submit(run_number, number, failfast): tests for number, tests in enumerate(parts)}
        for done in as_completed(started):
            ran.append(outcome(done, started[done]))
            sys.stderr.write(ran[-1].said)
            if failfast and ran[-1].failed:
                pool.shutdown(cancel_futures=True)
                break
    return ran


def run(
    tests: unittest.TestSuite, failfast: bool = False, jobs: int = 1, is_built: bool = False, slowest: int = 0
) -> bool:
    """Runs the tests, prints what failed, what was skipped and what took longest, and returns whether all passed.

    Where the program is built, a test that is skipped since it is not counts as a failure."""
    parts = parts_of(tests)
    ran = run_all(parts, failfast, jobs)
    left_out: Counter[str] = sum((one.skipped for one in ran), Counter())
    failed = sum(one.failed for one in ran)
    for reason, count in sorted(left_out.items()):
        print(f"{NAME}: {count} skipped: {reason}")
    for one in sorted((one for each in ran for one in each.took), key=lambda one: -one.seconds)[:slowest]:
        print(f"{NAME}: {one.seconds:.1f} s, {one.processors:.1f} s of processors: {one.test}")
    wrong = sum(count for reason, count in left_out.items() if is_built and reason.startswith(NOT_BUILT))
    if wrong:
        print(f"{NAME}: the program is built, so these {wrong} must not be skipped")
    print(f"{NAME}: {sum(map(len, parts)) - left_out.total()} ran, {left_out.total()} skipped, {failed} failed")
    return not failed and not wrong


def main() -> int:
    """Runs the selected tests; returns 0 if there are some and all passed, otherwise 1."""
    words = argparse.ArgumentParser(
        prog=".ci/tools_tests.py", description=__doc__, formatter_class=argparse.RawDescriptionHelpFormatter
    )
    words.add_argument(
        "-k",
        dest="patterns",
        metavar="PATTERN",
        action="append",
        default=[],
        help="only tests with this in their names",
    )
    words.add_argument("--failfast", action="store_true", help="stop at the first failure")
    words.add_argument(
        "--jobs", type=int, default=max(1, PROCESSORS - 1), help="the number of tests that run in parallel"
    )
    words.add_argument(
        "--built", action="store_true", help="the program is built: no test may be skipped for want of it"
    )
    words.add_argument("--slowest", type=int, default=0, metavar="N", help="print the N tests that took longest")
    given = words.parse_args()
    missing = missing_tools()
    if missing and os.environ.get("CI"):
        print(f"{NAME}: {' '.join(missing)} must be installed where CI is set")
        return 1
    tests = selected(given.patterns)
    if not tests.countTestCases():
        print(f"{NAME}: no test has a name with {' or '.join(given.patterns) or 'test'}")
        return 1
    return 0 if run(tests, given.failfast, given.jobs, given.built, given.slowest) else 1


if __name__ == "__main__":
    sys.exit(main())
