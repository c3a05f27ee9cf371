"""The bytecode that hippo-c and lower keep: later calls take it, and no call takes that of other sources."""
from __future__ import annotations

import glob
import os
import shutil
import subprocess
import sys
import tempfile
import unittest

from clang_case import TOOLS

TOLD = "from hippo_c import numbers; print(numbers.DEFAULT_TURNS)"


class Bytecode(unittest.TestCase):
    """A copy of the tools, with a cache of its own."""

    def setUp(self) -> None:
        """Copies the two packages."""
        room = tempfile.TemporaryDirectory()
        self.addCleanup(room.cleanup)
        self.tools, self.cache = f"{room.name}/tools", f"{room.name}/cache"
        for package in ("hippo_c", "lowering"):
            shutil.copytree(
                f"{TOOLS}/{package}", f"{self.tools}/{package}", ignore=shutil.ignore_patterns("__pycache__")
            )

    def told(self) -> str:
        """What a program says that imports a module of the tools as hippo-c does."""
        program = (
            f"import sys; sys.path.insert(0, {self.tools!r}); from lowering import bytecode; bytecode.keep(); {TOLD}"
        )
        environment = {**os.environ, "XDG_CACHE_HOME": self.cache}
        done = subprocess.run([sys.executable, "-B", "-c", program], env=environment, capture_output=True, text=True)
        self.assertEqual(done.stderr, "")
        return done.stdout.strip()

    def kept(self) -> list[str]:
        """The files of bytecode."""
        return sorted(glob.glob(f"{self.cache}/hippo-c/bytecode/**/*.pyc", recursive=True))

    def test_modules_are_kept(self) -> None:
        """A call writes the modules that it imports, in its own folder; the next one writes nothing, and nothing is in the sources."""
        first = self.told()
        kept = {name: os.stat(name).st_mtime_ns for name in self.kept()}
        self.assertIn("numbers", "".join(kept))
        self.assertEqual(self.told(), first)
        self.assertEqual({name: os.stat(name).st_mtime_ns for name in self.kept()}, kept)
        self.assertEqual(glob.glob(f"{self.tools}/**/__pycache__", recursive=True), [])

    def test_a_changed_source_of_the_same_size_and_time(self) -> None:
        """Its new text runs."""
        self.assertEqual(self.told(), "1000000000")
        path = f"{self.tools}/hippo_c/numbers.py"
        state = os.stat(path)
        with open(path, encoding="utf-8") as file:
            text = file.read()
        changed = text.replace("1_000_000_000", "2_000_000_000")
        self.assertNotEqual(changed, text)
        with open(path, "w", encoding="utf-8") as file:
            file.write(changed)
        os.utime(path, ns=(state.st_atime_ns, state.st_mtime_ns))
        self.assertEqual(self.told(), "2000000000")

    def test_a_folder_that_others_may_write(self) -> None:
        """It is not used."""
        self.told()
        for name in self.kept():
            os.unlink(name)
        for folder in glob.glob(f"{self.cache}/hippo-c/bytecode/*"):
            os.chmod(folder, 0o777)
        self.told()
        self.assertEqual(self.kept(), [])

    def test_no_place(self) -> None:
        """Without a folder to write in, the tools work."""
        os.makedirs(self.cache)
        with open(f"{self.cache}/hippo-c", "w", encoding="ascii"):
            pass
        self.assertEqual(self.told(), "1000000000")

    def test_old_folders_go(self) -> None:
        """The folders of many versions do not pile up."""
        for number in range(12):
            os.makedirs(f"{self.cache}/hippo-c/bytecode/{number}")
        self.told()
        self.assertLessEqual(len(os.listdir(f"{self.cache}/hippo-c/bytecode")), 8)
        self.assertTrue(self.kept())


if __name__ == "__main__":
    unittest.main()
