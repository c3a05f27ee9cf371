#!/usr/bin/env python3
"""The runtime's floating-point numbers, on the processor and against the system's C library: arithmetic, texts and reading.

`floats_on_processor.c` and `floats_on_library.c` say what they compare. With a count of their own they do more by hand."""
import os
import subprocess
import unittest

from clang_case import TESTS, TOOLS, ClangCase

RUNTIME = os.path.join(TOOLS, "runtime")
FLAGS = ["clang-19", "-O1", "-w", "-ffp-contract=off", "-mclwb", "-mclflushopt", "-DHIPPO_FLOATS", f"-I{TOOLS}"]


class Floats(ClangCase):
    """One test for each program."""

    def is_same(self, name: str, count: int, files: list[str]) -> None:
        """A program finds no difference for a count of random numbers."""
        program = os.path.join(self.folder, name)
        subprocess.run([*FLAGS, "-o", program, f"{TESTS}/{name}.c", *files, "-lm"], check=True)
        done = subprocess.run(
            [program, str(count), "20"], capture_output=True, encoding="ascii", timeout=300, check=False
        )
        self.assertEqual((done.returncode, done.stdout), (0, "0 differ\n"))

    def test_arithmetic_is_that_of_the_processor(self) -> None:
        self.is_same("floats_on_processor", 300000, [])

    def test_texts_and_readings_are_those_of_the_library(self) -> None:
        files = [os.path.join(RUNTIME, f"{name}.c") for name in ("float_text", "float_read", "format")]
        self.is_same("floats_on_library", 20000, [*files, os.path.join(TOOLS, "external_functions.c")])


if __name__ == "__main__":
    unittest.main()
