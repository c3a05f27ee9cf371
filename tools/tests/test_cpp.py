#!/usr/bin/env python3
"""Each C++ program in `cpp/` prints, lowered at each level, what clang's own build of it prints (`comparing.py`), or ends as its
comments say: each `// refused: TEXT` is in the messages of tools/lower, which refuses the program with one line at most
for each line that comes to the library, and no `// no line: TEXT` is;
`// trap: LINE` is the line of the `throw` at which the run traps, after a part of what the own build prints,
and with `// traps: in the library` it traps there."""
import glob
import os
import re
import shutil
import subprocess
import sys
import unittest
from collections.abc import Callable
from concurrent.futures import ThreadPoolExecutor

from clang_case import HIPPO, TESTS, TOOLS
from comparing import LEVELS, Comparing, given, output_of


WEAK = """#include <hippo.h>
extern "C" __attribute__((weak)) long other(long);
int main() {
  print_i64(other ? other(read_i64()) : 5);
  return 0;
}
"""


class Cpp(Comparing):
    """One test for each program."""

    clang = "-w -std=c++20"

    def check(self, file: str) -> None:
        """A program by its comments."""
        with open(file, encoding="utf-8") as text:
            source = text.read()
        if texts := re.findall("^// refused: (.*)$", source, re.M):
            self.at_levels(source, lambda level: self.refused(level, file, source, texts))
        elif line := given(source, "trap") or given(source, "traps"):
            self.at_levels(source, lambda level: self.trapped(level, file, source, line[0]))
        else:
            self.compare(file)

    def test_without_a_compiler_of_cpp(self) -> None:
        """A file of C++ needs clang++-19, one of C does not; without it the exit code is 69, and nothing is written."""
        tools = os.path.join(self.folder, "tools_of_c")
        os.mkdir(tools)
        for name in ("clang-19", "opt-19", "llvm-link-19", "llvm-as-19", "llvm-cxxfilt-19"):
            os.symlink(shutil.which(name) or name, os.path.join(tools, name))
        for end, wanted in (("c", 0), ("cpp", 69), ("cc", 69), ("cxx", 69), ("c++", 69), ("C", 69)):
            file = os.path.join(self.folder, f"small.{end}")
            with open(file, "w", encoding="utf-8") as out:
                out.write("int main(void) { return 0; }\n")
            done = subprocess.run(
                [sys.executable, os.path.join(TOOLS, "lower"), file],
                capture_output=True,
                encoding="utf-8",
                check=False,
                env={**os.environ, "PATH": tools},
            )
            self.assertEqual((done.returncode, done.stdout == ""), (wanted, wanted != 0), done.stderr)
            self.assertEqual("clang++-19 is not installed" in done.stderr, wanted == 69, done.stderr)

    def test_a_file_is_compiled_once(self) -> None:
        """Also where a function stays undefined: the bodies that another file may define are known from the first time."""
        tools = os.path.join(self.folder, "counted_tools")
        os.mkdir(tools)
        log, compiler, file = (os.path.join(tools, name) for name in ("log", "clang++-19", "weak.cpp"))
        with open(compiler, "w", encoding="utf-8") as script:
            script.write(f'#!/bin/sh\necho "$*" >>{log}\nexec {shutil.which("clang++-19")} "$@"\n')
        os.chmod(compiler, 0o755)
        with open(file, "w", encoding="utf-8") as out:
            out.write(WEAK)
        environment = {**os.environ, "PATH": f'{tools}:{os.environ["PATH"]}'}
        command = [sys.executable, os.path.join(TOOLS, "lower"), "-O1", file]
        done = subprocess.run(command, capture_output=True, encoding="utf-8", check=False, env=environment)
        self.assertEqual(done.returncode, 0, done.stderr)
        self.assertIn("no file defines the weak name other: it is null", done.stderr)
        with open(log, encoding="utf-8") as read:
            self.assertEqual(read.read().count(file), 1)

    def at_levels(self, source: str, wrong: Callable[[str], str]) -> None:
        """Nothing is wrong at any level."""
        with ThreadPoolExecutor(4) as workers:
            found = list(workers.map(wrong, given(source, "levels", LEVELS)))
        self.assertEqual([line for line in found if line], [])

    def lower(self, level: str, file: str, source: str, *more: str) -> tuple[int, str, str]:
        """What tools/lower says to a program at a level."""
        clang = given(source, "clang", self.clang)
        return output_of([os.path.join(TOOLS, "lower"), level, *more, *given(source, "options"), file, "--", *clang])

    def refused(self, level: str, file: str, source: str, texts: list[str]) -> str:
        """What is wrong with a refusal."""
        code, printed, errors = self.lower(level, file, source)
        unwanted = re.findall("^// no line: (.*)$", source, re.M)
        places = re.findall(rf"^lower: (\S*{re.escape(os.path.basename(file))}:\d+): std::", errors, re.M)
        is_right = (
            (code, printed) == (5, "")
            and all(text in errors for text in texts)
            and not any(text in errors for text in unwanted)
            and len(places) == len(set(places))
        )
        return "" if is_right else f"{level}: {code}: {errors}"

    def trapped(self, level: str, file: str, source: str, line: str) -> str:
        """What is wrong with a run that traps."""
        code, text, errors = self.lower(level, file, source, "--lines")
        name = os.path.basename(file)
        place = rf"  unreachable ; (?:[^ \n]*/)?{re.escape(name)}:{line}:"
        if code or line.isdecimal() and not (re.search(place, text) and "note: throw" in errors):
            return f"{level}: {code}: {errors}"
        if not os.access(HIPPO, os.X_OK):
            return ""
        lowered = os.path.join(self.folder, f"{name}{level}.ll")
        with open(lowered, "w", encoding="latin-1") as out:
            out.write(text)
        native = self.built([file], f"{name}{level}", "-O1", tuple(given(source, "clang", self.clang)))
        native_code, wanted, _ = output_of([native], "0 1 2 3")
        code, printed, errors = output_of([HIPPO, "run", lowered, "0", "1", "2", "3"])
        is_part = wanted.startswith(printed) or native_code < 0  # an abort loses the text that waits
        return "" if is_part and "trap unreachable" in errors else f"{level}: {errors} {printed}"


def add_tests() -> None:
    """A test for each program."""
    for file in sorted(glob.glob(os.path.join(TESTS, "cpp", "*.cpp"))):
        name = os.path.splitext(os.path.basename(file))[0]
        setattr(Cpp, f"test_{name}", lambda self, file=file: self.check(file))


add_tests()
if __name__ == "__main__":
    unittest.main()
