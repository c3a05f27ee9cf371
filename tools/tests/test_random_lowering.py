"""The lowering of random programs in one process: it gives what the command gives, also from what it kept, and says what is refused."""
from __future__ import annotations

import os
import subprocess
import unittest

from clang_case import TOOLS, ClangCase
from random_c.in_process import Lowering

TEXT = '#include <hippo.h>\n#include <stdlib.h>\nPERSISTENT long word;\nint main(void) { word = strtol("12", 0, 10); return %s; }\n'


class InProcess(ClangCase):
    """Words of the command line."""

    def setUp(self) -> None:
        """Makes the file."""
        self.lowering = Lowering()
        self.path = os.path.join(self.folder, "program.c")
        self.write("0")

    def write(self, result: str) -> None:
        """Writes the program, which returns this."""
        with open(self.path, "w", encoding="ascii") as file:
            file.write(TEXT % result)

    def by_command(self, words: list[str]) -> str:
        """What the command writes."""
        command = [os.path.join(TOOLS, "lower"), *words]
        return subprocess.run(command, capture_output=True, encoding="latin-1", check=True).stdout

    def test_the_command_writes_the_same(self) -> None:
        for level in ("-O0", "-O2"):
            words = [level, self.path, "--", "-w"]
            written = self.by_command(words)
            for _ in range(2):
                self.assertEqual(self.lowering.text(words), written)

    def test_a_changed_file_is_compiled_again(self) -> None:
        words = [self.path, "--", "-w"]
        before = self.lowering.text(words)
        self.write("7")
        self.lowering.forget(self.path)
        self.assertIn("ret i32 7", self.lowering.text(words))
        self.assertNotIn("ret i32 7", before)

    def test_what_is_refused_is_an_error(self) -> None:
        for result, reason in (("(__sync_synchronize(), 0)", "a fence between threads"), ("(", "ended with 1")):
            self.write(result)
            with self.assertRaisesRegex(RuntimeError, reason):
                self.lowering.text([self.path, "--", "-w"])
            self.lowering.forget(self.path)


if __name__ == "__main__":
    unittest.main()
