#!/usr/bin/env python3
"""The Python of this repository: its types, its format, and the sizes of its modules and functions."""
from __future__ import annotations

import ast
import os
import shutil
import subprocess
import tempfile
import unittest
from pathlib import Path
from typing import Iterator

TOP = Path(__file__).resolve().parents[2]
SCRIPTS = ("bench/figures", "tools/hippo-c", "tools/lower", "tools/release")
MOST_LINES, MOST_LINES_OF_A_FUNCTION, MOST_PARAMETERS = 300, 40, 6


def sources() -> list[Path]:
    """The files of Python that are tracked or new."""
    listed = subprocess.run(
        ["git", "ls-files", "-co", "--exclude-standard", "*.py", *SCRIPTS],
        cwd=TOP,
        capture_output=True,
        text=True,
        check=True,
    )
    return [TOP / name for name in listed.stdout.split("\n") if name and (TOP / name).is_file()]


def too_large(path: Path) -> Iterator[str]:
    """What of a file is above a limit."""
    text = path.read_text(encoding="utf-8")
    name = path.relative_to(TOP).as_posix()
    if text.count("\n") >= MOST_LINES:
        yield f"{name}: {text.count(chr(10))} lines"
    for node in ast.walk(ast.parse(text)):
        if isinstance(node, (ast.FunctionDef, ast.AsyncFunctionDef)):
            lines = (node.end_lineno or node.lineno) - node.lineno + 1
            given = node.args
            parameters = [one.arg for one in (*given.posonlyargs, *given.args, *given.kwonlyargs)]
            count = len([one for one in parameters if one not in ("self", "cls")])
            if lines >= MOST_LINES_OF_A_FUNCTION:
                yield f"{name}:{node.lineno}: {node.name} has {lines} lines"
            if count > MOST_PARAMETERS:
                yield f"{name}:{node.lineno}: {node.name} has {count} parameters"


class PythonTools(unittest.TestCase):
    """What Debian's packages `mypy` and `black` say of the sources, by the settings of pyproject.toml."""

    def tool(self, name: str, *words: str) -> subprocess.CompletedProcess[str]:
        """Runs a tool. Without it the test is skipped; where CI is set, the tool must be installed."""
        if shutil.which(name) is None:
            if os.environ.get("CI"):
                self.fail(f"{name} must be installed where CI is set")
            self.skipTest(f"{name} is not installed")
        return subprocess.run([name, *words], cwd=TOP, capture_output=True, text=True, check=False)

    def test_types(self) -> None:
        ran = self.tool("mypy")
        self.assertEqual(ran.returncode, 0, ran.stdout + ran.stderr)

    def test_types_of_the_launcher_under_its_oldest_python(self) -> None:
        ran = self.tool("mypy", "--python-version", "3.8", "tools/launcher")
        self.assertEqual(ran.returncode, 0, ran.stdout + ran.stderr)

    def test_a_function_without_types_is_refused(self) -> None:
        with tempfile.TemporaryDirectory() as folder:
            file = Path(folder) / "untyped.py"
            file.write_text("def double(number):\n    return number * 2\n", encoding="ascii")
            ran = self.tool("mypy", "--cache-dir", folder, str(file))
        self.assertEqual(ran.returncode, 1)
        self.assertIn("no-untyped-def", ran.stdout)

    def test_format(self) -> None:
        ran = self.tool("black", "--quiet", "--check", "--diff", ".")
        self.assertEqual((ran.returncode, ran.stdout), (0, ""))


class Sizes(unittest.TestCase):
    """Modules below 300 lines, functions below 40 lines, and at most six parameters."""

    def test_sizes(self) -> None:
        self.assertEqual([line for path in sources() for line in too_large(path)], [])


if __name__ == "__main__":
    unittest.main()
