"""The words that the launcher answers itself, the program that the caller names, and the files that the words name."""

from __future__ import annotations

import os
import re
import unittest

from launcher_repository import TOP, Repository


class Words(Repository):
    """The words that the launcher answers itself, and the program that the caller names."""

    def test_help_is_on_standard_output(self) -> None:
        ran = self.hippo("--help")
        self.assertEqual((ran.returncode, ran.stderr), (0, ""))
        for command in ("run", "record", "check", "repair", "rerun", "many", "crash", "thin", "demo"):
            self.assertRegex(ran.stdout, rf"(?m)^  {command} .* hippo {command} ")

    def test_version_says_whether_the_program_is_proved(self) -> None:
        version = (TOP / "VERSION").read_text().strip()
        before = self.hippo("--version").stdout
        self.assertEqual(
            before,
            f"hippo {version}\ncommit: unknown\ntoolchain: kit of tests\nproved: no, ./hippo --build proves it\n",
        )
        self.hippo("--build")
        self.assertRegex(self.hippo("--version").stdout, r"(?m)^proved: yes, \d{4}-.* UTC, by kit of tests$")
        self.change("crates/hippo/src/lib")
        self.assertRegex(self.hippo("--version").stdout, "(?m)^proved: no, a source changed")

    def test_other_words_of_build_are_refused(self) -> None:
        for words in (["more"], ["--jobs", "0"], ["--jobs", "x"]):
            ran = self.hippo("--build", *words)
            self.assertEqual((ran.returncode, ran.stdout), (2, ""))
        self.assertEqual(self.calls("ci"), 0)

    def test_runs_the_program_that_is_named(self) -> None:
        ran = self.hippo("a b", more={"HIPPO_PROGRAM": "/bin/echo"})
        self.assertEqual((ran.returncode, ran.stdout, ran.stderr), (0, "a b\n", ""))
        (self.work / "mine").symlink_to("/bin/echo")
        self.fails(self.hippo("a", more={"HIPPO_PROGRAM": "mine"}), "names no program: mine")
        self.assertEqual(self.hippo("a", more={"HIPPO_PROGRAM": "./mine"}).stdout, "a\n")
        self.assertEqual(
            self.hippo("a", more={"HIPPO_PROGRAM": "mine", "PATH": f"/none:{self.work}:{os.environ['PATH']}"}).stdout,
            "a\n",
        )
        self.fails(self.hippo("x", more={"HIPPO_PROGRAM": str(self.work)}), re.escape(f"names no program: {self.work}"))

    def test_names_the_files_that_cannot_be_read(self) -> None:
        """The program's own line says which of its words is meant; the launcher adds the names after it."""
        self.hippo("--build")
        (self.work / "program").write_text('#!/bin/sh\necho "$#"\necho "hippo: no file: program" >&2\nexit 2\n')
        (self.work / "program").chmod(0o755)
        both: tuple[tuple[dict[str, str], list[str]], ...] = (
            ({"HIPPO_PROGRAM": "./program"}, ["hippo: no file: program"]),
            ({}, []),
        )
        for more, own in both:
            ran = self.hippo("check", "none.ll", "/dev/null", more=more)
            self.assertEqual(ran.stderr.splitlines(), [*own, "hippo: none.ll: no such file"])
            self.assertEqual(ran.returncode, 2 if own else 7)
        named: tuple[tuple[tuple[str, ...], list[str]], ...] = (
            (("run", "a b", "7"), ["a b: no such file"]),
            (("many", "x", "repair", "y"), ["x: no such file", "y: no such file"]),
            (("repair", ".", "z"), [".: this is a folder", "z: no such file"]),
            (("demo", "x"), []),
            (("crash", "repair", "repair", "3"), []),
            (("check", "--base", "x"), []),
            (("check",), []),
            ((), []),
        )
        for words, names in named:
            self.assertEqual(self.hippo(*words).stderr.splitlines(), [f"hippo: {name}" for name in names], words)

    def test_a_defect_of_the_launcher_names_its_file_and_line(self) -> None:
        schedule = self.top / "tools" / "crate_schedule.py"
        text = schedule.read_text(encoding="utf-8") + '\n\ndef read_crates(text):\n    raise KeyError("a crate")\n'
        schedule.write_text(text, encoding="utf-8")
        place = rf"crate_schedule\.py:{text.count(chr(10))}, in read_crates"
        ran = self.hippo("run", "a.ll")
        self.assertEqual((ran.returncode, ran.stdout), (69, ""))
        self.assertRegex(
            ran.stderr,
            rf"(?m)^hippo: a defect of the launcher: KeyError: 'a crate' at \S*{place}; HIPPO_TRACEBACK=1 shows more$",
        )
        self.assertNotIn("Traceback", ran.stderr)
        ran = self.hippo("run", "a.ll", more={"HIPPO_TRACEBACK": "1"})
        self.assertRegex(ran.stderr, r'(?m)^hippo:   File ".*__main__\.py", line \d+, in run$')

    def test_runs_a_launcher_that_is_named(self) -> None:
        self.hippo("--build")
        plain, ran = self.hippo("a b"), self.hippo("a b", more={"HIPPO_PROGRAM": str(self.top / "hippo")})
        self.assertEqual((ran.returncode, ran.stdout, ran.stderr), (plain.returncode, plain.stdout, plain.stderr))
        self.assertEqual(ran.stdout, "proved a b\n")

    def test_runs_through_a_link_and_by_a_relative_path(self) -> None:
        self.hippo("--build")
        (self.room / "link").symlink_to(self.top / "hippo")
        for script in (self.room / "link", "../clone/hippo"):
            self.assertEqual(self.hippo("run", script=script).stdout, "proved run\n")


if __name__ == "__main__":
    unittest.main()
