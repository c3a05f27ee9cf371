"""The first and the following calls: init, --quiet, --version, --jobs and --watch."""
from __future__ import annotations

import os
import pty
import select
import signal
import subprocess
import sys
import time
import unittest
from typing import Any

from .common import LONG, TOOLS, Case, built_program

PROGRAM = (
    '#include <hippo.h>\n#include "n.h"\nPERSISTENT long n;\nint main(void) {\n  n = VALUE;\n  FLUSH;\n  return 0;\n}\n'
)
HEADER = "#define VALUE 1\n#define FLUSH (void)0\n"
CLEAN = "#define VALUE 1\n#define FLUSH (_mm_clwb(&n), _mm_sfence())\n"
WAITS = "hippo-c: watching "


@unittest.skipUnless(built_program(), "hippo is not built")
class First(Case):
    """A new folder."""

    def test_init(self) -> None:
        """Its files are a project with one report; files that are there stay as they are."""
        ran = self.hippo_c("init", "project", code=0)
        self.assertEqual(ran.stdout, "written: hippo.toml, first.c, Makefile; next: cd project && hippo-c check\n")
        ran = self.hippo_c("check", code=1, cwd=self.path("project"))
        said = (
            "first.c:12:16: warning: store of 8 bytes to 'totals.count' is not durable when 'add' returns in first.c:13"
        )
        self.assertIn(said, ran.stdout)
        self.refused("project/hippo.toml: this file is there already", "init", "project")
        os.mkdir(self.path("other"))
        self.write("other/Makefile", "all:\n")
        self.refused("other/Makefile: this file is there already", "init", "other")
        self.assertEqual(os.listdir(self.path("other")), ["Makefile"])
        self.refused("/dev/null/x", "init", "/dev/null/x")

    def test_quiet_version_and_jobs(self) -> None:
        """Reports and errors alone; the version of each command; one compilation at a time."""
        self.write("a.c", PROGRAM)
        self.write("n.h", HEADER)
        ran = self.hippo_c("check", "a.c", "-q", "--no-source", "-j", "1", code=1)
        self.assertRegex(ran.stdout, r"\Aa\.c:5:5: warning: store of 8 bytes to 'n' is not durable .*\n\Z")
        self.write("n.h", CLEAN)
        self.assertEqual(self.hippo_c("check", "a.c", "--quiet", code=0).stdout, "")
        for words in (["--version"], ["check", "--version"], ["repair", "--version"]):
            ran = self.hippo_c(*words, code=0)
            self.assertRegex(ran.stdout, r"\Ahippo-c \d+\.\d+\.\d+\n")
            self.assertIn("\nproved: ", ran.stdout)
        self.refused("argument -j/--jobs", "check", "a.c", "-j", "0")


@unittest.skipUnless(built_program(), "hippo is not built")
class Watch(Case):
    """The command again after each change."""

    def setUp(self) -> None:
        """Writes the program."""
        super().setUp()
        self.write("a.c", PROGRAM)
        self.write("n.h", HEADER)

    def started(self, *words: str, **more: Any) -> subprocess.Popen[bytes]:
        """A command that watches."""
        command = [sys.executable, f"{TOOLS}/hippo-c", "check", *words, "a.c", "--watch"]
        process: subprocess.Popen[bytes] = subprocess.Popen(command, cwd=self.folder, stdin=subprocess.DEVNULL, **more)
        self.addCleanup(process.wait)
        self.addCleanup(process.kill)
        return process

    def read_until(self, number: int, mark: str) -> str:
        """What a descriptor has up to a mark."""
        text, end = "", time.monotonic() + LONG
        while mark not in text and time.monotonic() < end:
            if select.select([number], [], [], 1)[0]:
                text += os.read(number, 65536).decode()
        self.assertIn(mark, text)
        return text

    def test_a_pipe(self) -> None:
        """It answers again when a header changes and when a source does not compile, and an interrupt ends it."""
        process = self.started("--no-source", stdout=subprocess.PIPE, stderr=subprocess.STDOUT)
        assert process.stdout
        self.addCleanup(process.stdout.close)
        number = process.stdout.fileno()
        self.assertIn("1 report in 1 group", self.read_until(number, WAITS))
        self.write("n.h", CLEAN)
        text = self.read_until(number, WAITS)
        self.assertIn("n.h has changed", text)
        self.assertIn("0 reports in 0 groups", text)
        self.assertNotIn("\x1b", text)
        self.write("n.h", "#define VALUE ;\n")
        self.assertIn("error", self.read_until(number, WAITS))
        process.send_signal(signal.SIGINT)
        self.assertEqual(process.wait(), 130)

    def test_a_terminal(self) -> None:
        """It clears the terminal before each answer."""
        own, other = pty.openpty()
        process = self.started("--color", "never", stdout=other, stderr=other)
        os.close(other)
        self.assertIn("\x1b[2J", self.read_until(own, WAITS))
        self.write("n.h", CLEAN)
        self.assertIn("\x1b[2J", self.read_until(own, "0 reports in 0 groups"))
        process.send_signal(signal.SIGTERM)
        self.assertEqual(process.wait(), 143)
        os.close(own)

    def test_words_that_do_not_go_together(self) -> None:
        """An answer on standard output is one answer."""
        self.refused("--watch: give --watch or an answer on standard output", "check", "a.c", "--watch", "--json", "-")
