#!/usr/bin/env python3
"""PMDK's own unit tests, unchanged, natively and in hippo: each text that a test writes becomes a number (ut.c), and the numbers of both
runs must be the same. It prints a table with a reason for each test that is out; the exit code is 1 if fewer tests than `--least` print the
same, or if a test that prints the same is said to be out."""
from __future__ import annotations

import argparse
import glob
import os
import re
import subprocess
import sys
import tempfile
from concurrent.futures import ThreadPoolExecutor

sys.dont_write_bytecode = True
HERE = os.path.dirname(os.path.abspath(__file__))
sys.path[:0] = [HERE, os.path.dirname(HERE)]
from steps import Differs, Setting, run  # noqa: E402

from library import Library  # noqa: E402
from tests import NOT_TRIED, TESTS, Test  # noqa: E402
from work import (  # noqa: E402
    ANY_CODE,
    UUID,
    arguments_of,
    native_object,
    print_head,
    print_row,
    setting_of,
    source_of,
)

OPTIONS = (
    "--single-thread --file-calls --ignore-output --unaligned --array-bound 16K --heap 14M --heap-on-stack 12M".split()
)
SUPPORT = ("ut_alloc", "ut_file", "ut_pthread")
HEADINGS = ("test", "arguments", "result", "numbers", "entries", "reports", "stores, flushes, fences")
SECONDS = 300
FATAL = "1000002"  # what ut.c prints where a test gives up
LIMIT = ["--limit", "20000000000"]
MOCK = re.compile(r"^FUNC_MOCK(?:_RET_ALWAYS(?:_VOID)?)?\((\w+),", re.M)


class Tests:
    """The tests, and the folder in which they are made."""

    def __init__(self, source: str, setting: Setting) -> None:
        self.library, self.setting, self.folder = Library(source), setting, setting.scratch
        self.tests = f"{self.library.source}/test"
        self.support = self.library.note([f"test/unittest/{name}.c" for name in SUPPORT], self.library.of_tests)
        self.support += self.library.note([f"{HERE}/ut.c"], [*self.library.of_tests, f"-I{HERE}"])
        for name, content in (("uuid", UUID), ("zeros", "\0" * (16 << 20)), ("small", "\0" * 4096)):
            with open(f"{self.folder}/{name}", "w", encoding="ascii") as file:
                file.write(content)
        with ThreadPoolExecutor(2) as workers:
            self.objects = list(workers.map(self.object_of, [*self.library.files, *self.support]))

    def object_of(self, file: str) -> str:
        """The native object of a file of the library."""
        return native_object(self.setting, file, self.library.arguments[file])

    def files_of(self, test: Test) -> list[str]:
        """The files of a test."""
        folder = f"{self.tests}/{test.name}"
        names = sorted(name for name in glob.glob(f"{folder}/*.c") if "win" not in os.path.basename(name))
        names += [f"{self.tests}/{test.uses}"] if test.uses else []
        return self.library.note(names, self.arguments_of(test))

    def arguments_of(self, test: Test) -> list[str]:
        """The arguments of clang for the files of a test."""
        folders = [f"{self.tests}/{test.name}", *([os.path.dirname(f"{self.tests}/{test.uses}")] if test.uses else [])]
        return [*self.library.of_tests, *(f"-I{folder}" for folder in folders)]

    def wraps_of(self, test: Test) -> list[str]:
        """The functions that the test replaces by its own, as PMDK's Makefile finds them for the linker."""
        found: set[str] = set()
        for path in glob.glob(f"{self.tests}/{test.name}/*.c"):
            with open(path, encoding="utf-8") as file:
                found |= set(MOCK.findall(file.read()))
        return sorted(found)

    def build(self, test: Test) -> str:
        """The native program."""
        program, tools = f"{self.folder}/{test.name}.native", f"{self.setting.top}/tools"
        words = ["clang-19", "-O0", "-w", "-mclwb", "-mclflushopt", f"-I{tools}", *self.arguments_of(test)]
        words += ["-o", program, *self.files_of(test), *self.objects]
        words += [f"{tools}/external_functions.c", *(f"-Wl,--wrap={name}" for name in self.wraps_of(test))]
        run([*words, "-Wl,--allow-multiple-definition", "-ldl", "-lpthread"], self.folder)
        return program

    def native(self, test: Test) -> tuple[str, int]:
        """What the native test prints, and its exit code."""
        program = self.build(test)
        with tempfile.TemporaryDirectory(dir=self.folder) as place:
            for pool in test.pools.split():
                name, _, rest = pool.partition("=")
                if "," in rest:
                    run(["cp", f'{self.folder}/{rest.split(",")[1]}', f"{place}/{name}"], place)
            done = timed([program, *test.arguments.split()], place, "the native run")
        os.unlink(program)
        return done.stdout, done.returncode

    def lowered(self, test: Test) -> str:
        """The file of the lowered text."""
        files = [*self.files_of(test), *self.support, *self.library.files]
        commands = self.library.write_commands(f"{self.folder}/{test.name}.json")
        pools = [word for pool in [*test.pools.split(), "uuid=64,uuid"] for word in ("--pool", pool)]
        words = [f"{self.setting.top}/tools/lower", *OPTIONS, *pools, *test.options.split()]
        words += [f"--wrap={name}" for name in self.wraps_of(test)]
        words += ["--cache", f"{self.folder}/modules", "--compile-commands", commands, *files]
        words += ["--args", *test.arguments.split(), "--", "-w"]
        done = subprocess.run(words, cwd=self.folder, capture_output=True, encoding="latin-1", check=False)
        if done.returncode:
            said = [line for line in done.stderr.splitlines() if " note: " not in line] or [""]
            raise Differs("refused: " + re.sub(r"^lower: (?:\S+:\d+: )?", "", said[0]).partition(": ")[0])
        text = f"{self.folder}/{test.name}.ll"
        with open(text, "w", encoding="latin-1") as file:
            file.write(done.stdout)
        return text

    def row(self, test: Test) -> tuple[bool, tuple[object, ...]]:
        """Whether a test prints the same in hippo, and its row."""
        try:
            expected = self.native(test)
            if expected[1] or FATAL in expected[0].split():
                raise Differs(f"it fails natively, with {expected[1]}")
            text = self.lowered(test)
            done = timed([self.setting.hippo, "run", text, *LIMIT], self.folder, "hippo")
            how = (done.stderr.strip().splitlines() or [""])[-1]
            if how != f"stop {expected[1]}":
                raise Differs(f"{how} in hippo, {expected[1]} natively")
            if done.stdout != expected[0]:
                pairs = zip([*done.stdout.split(), ""], [*expected[0].split(), ""])
                first = next(number for number, (one, other) in enumerate(pairs, 1) if one != other)
                raise Differs(f"other numbers from the {first}. on")
            checked = self.checked(text)
        except Differs as difference:
            why = f": {test.why}" if test.why else ""
            return False, (test.name, test.arguments[:40], f"{difference}{why}", "", "", "", "")
        return True, (test.name, test.arguments[:40], "same", len(expected[0].split()), *checked)

    def checked(self, text: str) -> tuple[int, int, str]:
        """The entries of the run's trace, the reports, with those that PMDK declares volatile, and the entries of each kind."""
        trace, counts = text[:-3] + ".trace", dict.fromkeys(("STORE", "FLUSH", "FENCE"), 0)
        with open(trace, "wb") as out:
            words = [self.setting.hippo, "record", text, *LIMIT]
            subprocess.run(words, stdout=out, stderr=subprocess.DEVNULL, check=False)
        entries = 0
        with open(trace, encoding="ascii") as file:
            for entries, entry in enumerate(file, 1):
                word = entry.partition(";")[0].strip()
                for counted in ("FLUSH", "FENCE") if word == "PERSIST" else (word,):
                    if counted in counts:
                        counts[counted] += 1
        said = run([self.setting.hippo, "check", text, trace], self.folder, codes=ANY_CODE).stderr
        os.unlink(trace)
        os.unlink(text)
        of_kinds = ", ".join(f"{count:,}" for count in counts.values())
        return entries, int(re.findall(r"^reports (\d+)$", said, re.M)[-1]), of_kinds


def timed(words: list[str], folder: str, what: str) -> subprocess.CompletedProcess[str]:
    """A run that must end in some time."""
    try:
        return subprocess.run(
            words,
            cwd=folder,
            env={**os.environ, "PMEM_IS_PMEM_FORCE": "1"},
            stdin=subprocess.DEVNULL,
            capture_output=True,
            encoding="latin-1",
            timeout=SECONDS,
            check=False,
        )
    except subprocess.TimeoutExpired:
        raise Differs(f"{what} takes more than {SECONDS} s") from None


def main() -> int:
    """Tries each test; returns 0 if enough of them print the same."""
    parser = arguments_of(__doc__)
    parser.add_argument("--least", type=int, default=40, help="how many tests must print the same (40)")
    options: argparse.Namespace = parser.parse_args()
    print_head(HEADINGS)
    same, wrong = 0, []
    with tempfile.TemporaryDirectory() as scratch:
        tests = Tests(source_of(options), setting_of(options, scratch))
        chosen = [test for test in TESTS if not options.names or test.name in options.names]
        with ThreadPoolExecutor(options.jobs) as workers:
            for test, (is_same, row) in zip(chosen, workers.map(tests.row, chosen)):
                same += is_same
                wrong += [test.name] if is_same and test.why else []
                print_row(row)
    for name, why in () if options.names else NOT_TRIED.items():
        print_row((name, "", f"not tried: {why}", "", "", "", ""))
    print(f"{same} of {len(chosen)} tests print the same, {len(NOT_TRIED)} are not tried")
    if wrong:
        print(f'said to be out, and the same: {", ".join(wrong)}')
    return 0 if same >= min(options.least, len(chosen)) and not wrong else 1


if __name__ == "__main__":
    sys.exit(main())
