"""Every Python file compiles, and every shell script is clean under shellcheck where that is installed."""

from __future__ import annotations

import shutil
import subprocess
import unittest
from pathlib import Path

TOP = Path(__file__).resolve().parents[2]
FOLDERS = (".ci", "bench", "tools")


def first_line(path: Path) -> str:
    """The first line of a file, which names the language of a script without an ending."""
    with path.open("rb") as file:
        return file.readline(200).decode("utf-8", "replace")


def scripts(ending: str, word: str) -> list[Path]:
    """The scripts of the repository with this ending, or with this word in the first line."""
    files = [TOP / "hippo", *(path for folder in FOLDERS for path in sorted((TOP / folder).rglob("*")))]
    files = [path for path in files if path.is_file() and "__pycache__" not in path.parts]
    return [path for path in files if path.suffix == ending or (not path.suffix and word in first_line(path))]


class Scripts(unittest.TestCase):
    """The scripts of the repository."""

    def test_python_compiles(self) -> None:
        found = scripts(".py", "python3")
        self.assertIn(TOP / "tools" / "lower", found)
        for path in found:
            with self.subTest(path.relative_to(TOP)):
                compile(path.read_text(encoding="utf-8"), str(path), "exec")

    def test_shell_scripts_are_clean(self) -> None:
        found = scripts(".sh", "sh\n")
        self.assertIn(TOP / ".ci" / "run", found)
        if shutil.which("shellcheck") is None:
            self.skipTest("shellcheck is not installed")
        done = subprocess.run(["shellcheck", *map(str, found)], cwd=TOP, capture_output=True, text=True, check=False)
        self.assertEqual((done.returncode, done.stdout), (0, ""))


if __name__ == "__main__":
    unittest.main()
