"""For tests that run clang 19: a folder that the tests of a class share."""
from __future__ import annotations

import os
import shutil
import subprocess
import tempfile
import unittest

TESTS = os.path.dirname(os.path.abspath(__file__))
TOOLS = os.path.dirname(TESTS)
TOP = os.path.dirname(TOOLS)
# The program that runs lowered texts; without it the tests skip what it would do.
HIPPO = os.path.abspath(os.environ.get("HIPPO_PROGRAM", os.path.join(TOP, "out", "hippo")))


class ClangCase(unittest.TestCase):
    """Tests that are skipped without clang 19."""

    folder: str

    @classmethod
    def setUpClass(cls) -> None:
        """Makes the folder."""
        if shutil.which("clang-19") is None:
            raise unittest.SkipTest("clang-19 is not installed")
        cls.folder = tempfile.mkdtemp()

    @classmethod
    def externals(cls) -> str:
        """The object of hippo's external functions, which is built once for the tests of a class."""
        path = os.path.join(cls.folder, "external_functions.o")
        if not os.path.exists(path):
            source = os.path.join(TOOLS, "external_functions.c")
            subprocess.run(
                ["clang-19", "-c", "-O1", "-w", "-mclwb", "-mclflushopt", f"-I{TOOLS}", "-o", path, source], check=True
            )
        return path

    @classmethod
    def tearDownClass(cls) -> None:
        """Removes the folder."""
        shutil.rmtree(cls.folder)
