"""The gate: what .ci/run runs and how it ends, which tests .ci/tools_tests.py finds, and what .ci/quick.py counts."""

from __future__ import annotations

import contextlib
import io
import os
import shutil
import signal
import subprocess
import sys
import tempfile
import time
import unittest
from pathlib import Path
from typing import Any
from unittest import mock

TOP = Path(__file__).resolve().parents[2]
sys.path.insert(0, str(TOP / ".ci"))

import quick  # noqa: E402
import tools_tests  # noqa: E402

# Stands for each script that .ci/run starts: it notes its name, its words and HIPPO_PROGRAM, and ends with the code in the file `code of NAME`.
STUB = """echo "NAME $* [${HIPPO_PROGRAM-}]" >>"$GATE_ROOM/log"
if [ -e "$GATE_ROOM/code of NAME" ]; then exit "$(cat "$GATE_ROOM/code of NAME")"; fi
"""
WORDS = {"tools_tests.py": "--built --slowest 10"}
SCRIPTS = (
    "tools/launcher/gate.py",
    ".ci/repository.py",
    ".ci/vocabulary.py",
    ".ci/tools_tests.py",
    ".ci/pages_and_exit_codes.sh",
    ".ci/documented_commands.py",
    ".ci/hostile_input.py",
    ".ci/from_c.sh",
)


def run(*words: str, **environment: str) -> subprocess.CompletedProcess[str]:
    """Runs a command at the top of the repository."""
    return subprocess.run(
        words,
        cwd=TOP,
        env={**os.environ, **environment},
        stdin=subprocess.DEVNULL,
        capture_output=True,
        text=True,
        check=False,
    )


class Run(unittest.TestCase):
    """.ci/run with a toolchain and scripts that only note that they ran."""

    def setUp(self) -> None:
        """Makes the folder with the scripts."""
        room = tempfile.TemporaryDirectory()
        self.addCleanup(room.cleanup)
        self.room = Path(room.name)
        for name in ("bin", ".ci", "tools/launcher"):
            (self.room / name).mkdir(parents=True)
        shutil.copy(TOP / ".ci" / "run", self.room / ".ci" / "run")
        for name in ("bin/rt", *SCRIPTS):
            self.stub(name)

    def stub(self, name: str) -> None:
        """Writes a script that notes that it ran, in the language of its name."""
        text, file = STUB.replace("NAME", Path(name).name), self.room / name
        if name.endswith(".py"):
            text = f"import subprocess, sys\nsys.exit(subprocess.call(['sh', '-c', {text!r}, *sys.argv]))\n"
        else:
            text = f"#!/bin/sh\n{text}"
        file.write_text(text, encoding="utf-8")
        file.chmod(0o755)

    def gate(self) -> tuple[int, list[str]]:
        """The exit code of the gate, and what it ran."""
        environment = {
            "PATH": f"{self.room}/bin:{os.environ['PATH']}",
            "GATE_ROOM": str(self.room),
            "HIPPO_PROGRAM": "/another/hippo",
        }
        ran = run(str(self.room / ".ci" / "run"), **environment)
        log = self.room / "log"
        return ran.returncode, log.read_text(encoding="utf-8").splitlines() if log.exists() else []

    def test_runs_everything_without_the_callers_program(self) -> None:
        names = [Path(name).name for name in SCRIPTS]
        self.assertEqual(self.gate(), (0, ["rt ci []", *(f"{name} {WORDS.get(name, '')} []" for name in names)]))

    def test_ends_with_the_first_status_that_is_not_zero(self) -> None:
        for number, name in enumerate(["rt", *(Path(name).name for name in SCRIPTS)], 1):
            with self.subTest(name):
                (self.room / f"code of {name}").write_text("7")
                code, log = self.gate()
                self.assertEqual((code, len(log)), (7, number))
                for file in ("log", f"code of {name}"):
                    (self.room / file).unlink()


class Ends(unittest.TestCase):
    """Tests that end in each way. Their names do not begin with `test`, so that they run only inside of other tests."""

    def passes(self) -> None:
        """Passes."""

    def fails(self) -> None:
        """Fails."""
        self.fail()

    def leaves(self) -> None:
        """Ends its process."""
        os._exit(0)

    def waits(self) -> None:
        """Takes a while."""
        time.sleep(0.2)

    def interrupts(self) -> None:
        """Interrupts a program."""
        for number in (signal.SIGHUP, signal.SIGQUIT, signal.SIGINT):
            with subprocess.Popen(["sleep", "100"]) as process:
                process.send_signal(number)
            self.assertEqual(process.returncode, -number)

    def keeps(self) -> None:
        """Puts a file into the cache."""
        os.makedirs(os.environ["XDG_CACHE_HOME"])
        (Path(os.environ["XDG_CACHE_HOME"]) / "kept").touch()

    def needs_hippo(self) -> None:
        """Is skipped without hippo."""
        self.skipTest("hippo is not built, so this is left out")

    def needs_more(self) -> None:
        """Is skipped without another tool."""
        self.skipTest("another tool is not installed")


class Others(Ends):
    """The same in another class."""


class Selection(unittest.TestCase):
    """Which tests run, and which are skipped."""

    def answer(self, *words: str, **environment: str) -> tuple[int, str]:
        """The exit code of .ci/tools_tests.py, and its standard output."""
        ran = run(sys.executable, ".ci/tools_tests.py", *words, **environment)
        return ran.returncode, ran.stdout

    def test_every_file_with_tests_is_found(self) -> None:
        tests = list(tools_tests.tests_in(tools_tests.selected([])))
        found = {type(test).__module__.replace(".", "/") + ".py" for test in tests}
        files = {path.relative_to(tools_tests.TESTS).as_posix() for path in tools_tests.TESTS.rglob("test_*.py")}
        self.assertEqual(files - found, set())
        self.assertFalse([test for test in tests if type(test).__name__ == "_FailedTest"])

    def test_an_empty_selection_fails(self) -> None:
        self.assertEqual(
            self.answer("-k", "*.no.such.test"), (1, "tests of the tools: no test has a name with *.no.such.test\n")
        )

    def test_a_skipped_class_counts_with_all_its_tests(self) -> None:
        every = [test for test in tools_tests.tests_in(tools_tests.selected([])) if type(test).__name__ == "Fixes"]
        code, said = self.answer("-k", "test_fix.Fixes", PATH="/nowhere", CI="")
        self.assertEqual(code, 0)
        self.assertEqual(
            said.splitlines(),
            [
                f"tests of the tools: {len(every)} skipped: clang-19 is not installed",
                f"tests of the tools: 0 ran, {len(every)} skipped, 0 failed",
            ],
        )

    def test_clang_must_be_installed_where_ci_is_set(self) -> None:
        code, said = self.answer("-k", "test_fix.Fixes", PATH="/nowhere", CI="true")
        self.assertEqual(code, 1)
        self.assertRegex(said, r"^tests of the tools: clang-19 .* must be installed where CI is set\n$")

    def ended(self, *tests: unittest.TestCase, **words: Any) -> tuple[bool, str, str]:
        """Whether tests passed, and what was printed and said of them."""
        said, wrong = io.StringIO(), io.StringIO()
        with contextlib.redirect_stdout(said), contextlib.redirect_stderr(wrong):
            passed = tools_tests.run(unittest.TestSuite(tests), **words)
        return passed, said.getvalue(), wrong.getvalue()

    def test_a_large_class_has_parts(self) -> None:
        tests = [Ends("passes") for _ in range(8)]
        self.assertEqual(
            [len(part) for part in tools_tests.parts_of(unittest.TestSuite([*tests, Others("passes")]))], [6, 2, 1]
        )
        self.assertEqual(
            self.ended(*tests, Others("fails"), jobs=2)[:2], (False, "tests of the tools: 9 ran, 0 skipped, 1 failed\n")
        )

    def test_a_failure_is_counted(self) -> None:
        passed, said, wrong = self.ended(Ends("fails"), Ends("passes"))
        self.assertEqual((passed, said), (False, "tests of the tools: 2 ran, 0 skipped, 1 failed\n"))
        self.assertIn("FAIL: fails (test_gate.Ends.fails)", wrong)

    def test_a_class_that_ends_its_process_fails(self) -> None:
        passed, said, wrong = self.ended(Ends("leaves"))
        self.assertEqual((passed, said), (False, "tests of the tools: 1 ran, 0 skipped, 1 failed\n"))
        self.assertEqual(wrong, "ERROR: test_gate.Ends (test_gate.Ends)\nits process ended\n")

    def test_no_test_is_skipped_for_want_of_a_program_that_is_built(self) -> None:
        skips = "tests of the tools: 1 skipped: hippo is not built, so this is left out\n"
        counts = "tests of the tools: 0 ran, 1 skipped, 0 failed\n"
        self.assertEqual(self.ended(Ends("needs_hippo"))[:2], (True, skips + counts))
        must = "tests of the tools: the program is built, so these 1 must not be skipped\n"
        self.assertEqual(self.ended(Ends("needs_hippo"), is_built=True)[:2], (False, skips + must + counts))
        self.assertEqual(self.ended(Ends("needs_more"), is_built=True)[0], True)

    def test_programs_can_be_interrupted_also_in_the_background_of_a_shell(self) -> None:
        for number in (signal.SIGHUP, signal.SIGQUIT, signal.SIGINT):
            before = signal.signal(number, signal.SIG_IGN)
            self.addCleanup(signal.signal, number, before)
        self.assertEqual(self.ended(Ends("interrupts"))[0], True)

    def test_the_cache_of_the_user_stays_as_it_is(self) -> None:
        with tempfile.TemporaryDirectory() as room, mock.patch.dict(os.environ, XDG_CACHE_HOME=room):
            self.assertEqual(self.ended(Ends("keeps"))[0], True)
            self.assertEqual(os.listdir(room), [])

    def test_the_slowest_come_first(self) -> None:
        passed, said, _ = self.ended(Ends("passes"), Ends("waits"), Others("passes"), jobs=2, slowest=1)
        self.assertTrue(passed)
        self.assertRegex(
            said,
            r"^tests of the tools: 0\.\d s, \d\.\d s of processors: test_gate\.Ends\.waits\n.*: 3 ran, 0 skipped, 0 failed\n$",
        )

    def test_c_programs_need_clang_where_ci_is_set(self) -> None:
        with tempfile.TemporaryDirectory() as room:
            for tool in ("bash", "dirname", "uname"):
                os.symlink(shutil.which(tool) or tool, f"{room}/{tool}")
            for given, code in (("", 0), ("true", 1)):
                ran = run("bash", ".ci/from_c.sh", PATH=room, CI=given)
                self.assertEqual((ran.returncode, ran.stdout), (code, "from C: skipped: python3 is not installed\n"))


class Quick(unittest.TestCase):
    """What .ci/quick.py shows of its parts."""

    def test_skips_are_counted(self) -> None:
        lines, count = quick.skips(
            "tests of the tools: 11 skipped: no browser\nfrom C: skipped: no csmith\n3 ran, 2 skipped, 0 failed\n"
        )
        self.assertEqual(lines, ["tests of the tools: 11 skipped: no browser", "from C: skipped: no csmith"])
        self.assertEqual(count, 12)

    def test_a_part_that_passes_shows_what_it_skips(self) -> None:
        said = io.StringIO()
        with contextlib.redirect_stdout(said):
            ended = [
                quick.part("a part", ["sh", "-c", f"echo more; echo 'x: 2 skipped: y'; exit {code}"], TOP)
                for code in (0, 1)
            ]
        self.assertEqual(ended, [(True, 2), (False, 2)])
        shown = r"^a part: passed, \d+ s\n  x: 2 skipped: y\nmore\nx: 2 skipped: y\na part: failed, \d+ s\n  x: 2 skipped: y\n$"
        self.assertRegex(said.getvalue(), shown)

    def test_each_part_exists(self) -> None:
        for command in quick.PARTS.values():
            self.assertTrue(any((TOP / word).is_file() for word in command), command)


if __name__ == "__main__":
    unittest.main()
