#!/usr/bin/env python3
"""Stores whose durability depends on where their bytes are: `hippo check` reports exactly those that a flush does not reach."""
from __future__ import annotations

import os
import re
import subprocess
import unittest

from clang_case import HIPPO, TESTS, TOOLS, ClangCase

PROGRAM = os.path.join(TESTS, "lowering_more", "layout_reports.c")
INPUT = ["3", "5", "6", "7", "8", "9"]


@unittest.skipUnless(os.access(HIPPO, os.X_OK), "hippo is not built")
class Layout(ClangCase):
    """One program of many functions, at each level."""

    def reported(self, level: str) -> set[str]:
        """The functions in whose calls a store is reported."""
        text, trace = (os.path.join(self.folder, f"layout.{ending}") for ending in ("ll", "trace"))
        for target, command in (
            (text, [os.path.join(TOOLS, "lower"), level, "--single-thread", PROGRAM, "--", "-w"]),
            (trace, [HIPPO, "record", text, *INPUT]),
        ):
            with open(target, "w", encoding="latin-1") as out:
                done = subprocess.run(command, stdout=out, stderr=subprocess.PIPE, encoding="utf-8", check=False)
            self.assertEqual(done.returncode, 0, done.stderr)
        self.assertEqual(done.stderr, "stop 0\n")
        done = subprocess.run([HIPPO, "check", text, trace], capture_output=True, encoding="utf-8", check=True)
        return set(re.findall(r"@((?:lost|kept)_\w+):", done.stdout))

    def test_each_level(self) -> None:
        """The reported functions are those that the program says."""
        with open(PROGRAM, encoding="utf-8") as text:
            lost = set(re.findall(r"^EACH (lost_\w+)\(", text.read(), re.M))
        self.assertEqual(len(lost), 16)
        for level in ("-O0", "-O1", "-O2", "-O3"):
            with self.subTest(level):
                self.assertEqual(self.reported(level), lost)


if __name__ == "__main__":
    unittest.main()
