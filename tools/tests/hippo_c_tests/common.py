"""What the tests share: a folder for files, and the command line."""
import base64
import hashlib
import os
import re
import shutil
import subprocess
import sys
import tempfile
import unittest
from typing import Any

sys.dont_write_bytecode = True
TOOLS = os.path.dirname(os.path.dirname(os.path.dirname(os.path.abspath(__file__))))
TOP = os.path.dirname(TOOLS)
EXAMPLES = os.path.join(TOP, "examples")
sys.path.insert(0, TOOLS)
from hippo_c.install import is_program  # noqa: E402
from hippo_c.program import Program  # noqa: E402
from hippo_c.running import hippo_program  # noqa: E402

# The tools of LLVM 19 that hippo-c runs.
NEEDED = ("clang-19", "opt-19", "llvm-as-19", "llvm-link-19", "llc-19")
# Seconds after which something hangs, however much else the machine does.
LONG = 900
RING_INPUT = ["--input", "12", "-5", "3", "-10", "0"]


def built_program() -> str:
    """A built program: the one that HIPPO_PROGRAM names, or the proved one; nothing if neither is there, since the launcher is a script."""
    for path in (os.environ.get("HIPPO_PROGRAM", ""), os.path.join(TOP, "out", "hippo")):
        if os.path.isfile(path) and is_program(path):
            return path
    return ""


def with_probe(page: str, probe: str) -> str:
    """A page with the element of a script before its end, which the policy of the page then allows."""
    script = probe.partition("<script>")[2].partition("</script>")[0]
    mark = base64.b64encode(hashlib.sha256(script.encode()).digest()).decode()
    return page.replace("script-src ", f"script-src 'sha256-{mark}' ", 1).replace("</body>", probe)


class Case(unittest.TestCase):
    """A test with a folder of its own, in which commands run. Without the tools of LLVM 19 it is skipped."""

    @classmethod
    def setUpClass(cls) -> None:
        """Looks for the tools."""
        for tool in NEEDED:
            if shutil.which(tool) is None:
                raise unittest.SkipTest(f"{tool} is not installed")

    def setUp(self) -> None:
        """Makes the folder."""
        room = tempfile.TemporaryDirectory(prefix="hippo-c-test-")
        self.addCleanup(room.cleanup)
        self.folder = room.name

    def path(self, name: str) -> str:
        """The path of a file in the folder."""
        return os.path.join(self.folder, name)

    def write(self, name: str, text: str) -> str:
        """Writes a file, and returns its name."""
        with open(self.path(name), "w", encoding="utf-8", newline="") as file:
            file.write(text)
        return name

    def read(self, name: str) -> str:
        """The text of a file."""
        with open(self.path(name), encoding="utf-8", newline="") as file:
            return file.read()

    def take(self, *path: str) -> str:
        """Copies a file of the examples, and returns its name."""
        shutil.copy(os.path.join(EXAMPLES, *path), self.folder)
        return path[-1]

    def group_in(self, pattern: str, text: str) -> str:
        """The first group of a pattern that a text has to have."""
        found = re.search(pattern, text, re.S)
        if found is None:
            self.fail(f"{pattern} is not in: {text[:500]}")
        return str(found[1])

    def command(self, *words: str, **more: Any) -> subprocess.CompletedProcess[str]:
        """Runs a command in the folder."""
        how: dict[str, Any] = {"cwd": self.folder, "stdout": subprocess.PIPE, "stderr": subprocess.PIPE, **more}
        ran: subprocess.CompletedProcess[str] = subprocess.run(words, stdin=subprocess.DEVNULL, text=True, **how)
        return ran

    def hippo_c(self, *words: str, code: int | None = None, **more: Any) -> subprocess.CompletedProcess[str]:
        """Runs hippo-c, which must end with the exit code if one is given."""
        ran = self.command(sys.executable, os.path.join(TOOLS, "hippo-c"), *words, **more)
        if code is not None:
            self.assertEqual(ran.returncode, code, f"{ran.stdout}{ran.stderr}")
        return ran

    def refused(self, reason: str, *words: str, **more: Any) -> None:
        """hippo-c refuses words: exit code 2, the reason on standard error without a traceback, and nothing on standard output."""
        ran = self.hippo_c(*words, code=2, **more)
        self.assertIn(reason, ran.stderr, words)
        self.assertNotIn("Traceback", ran.stderr, words)
        self.assertIn(ran.stdout, ("", None), words)

    def hippo(self, *words: str) -> subprocess.CompletedProcess[str]:
        """Runs hippo."""
        return self.command(hippo_program(), *words)

    def lower(self, *words: str) -> str:
        """The lowered text of files, with places."""
        ran = self.command(sys.executable, os.path.join(TOOLS, "lower"), "--lines", *words)
        self.assertEqual(ran.returncode, 0, ran.stderr)
        return str(ran.stdout)

    def program(self, *words: str) -> Program:
        """The lowered program of files."""
        return Program(self.lower(*words))
