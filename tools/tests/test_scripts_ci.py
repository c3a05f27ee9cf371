"""What the scripts of .ci refuse, and how .ci/hostile_input.py judges answers."""

from __future__ import annotations

import os
import subprocess
import sys
import unittest
from pathlib import Path

TOP = Path(__file__).resolve().parents[2]
sys.path.insert(0, str(TOP / ".ci"))

import hostile_input  # noqa: E402
import hostile_texts  # noqa: E402
from hostile_input import Answer  # noqa: E402

COUNTS = "reports 1\nflushes 1\nfences 1\nhoists 0\nclones 0\n"


def run(*words: str, **environment: str) -> subprocess.CompletedProcess[str]:
    """Runs a script of .ci."""
    return subprocess.run(
        words, cwd=TOP, env={**os.environ, **environment}, capture_output=True, text=True, check=False
    )


class Words(unittest.TestCase):
    """Bad words, and a program that does not exist."""

    def test_words_that_name_no_allocations_are_refused(self) -> None:
        for words in (["x"], ["1", "-2"], ["0"], ["5", "4"], ["1", "2", "0"], ["1", "2", "3", "4"], ["--try", "x"]):
            with self.subTest(words):
                ran = run("bash", ".ci/failing_allocations.sh", *words)
                self.assertEqual((ran.returncode, ran.stdout), (2, ""))
                self.assertRegex(ran.stderr, "^usage: .*\n$")

    def test_failing_allocations_need_a_program(self) -> None:
        ran = run("bash", ".ci/failing_allocations.sh", "1", HIPPO_PROGRAM="/nowhere/hippo")
        self.assertEqual((ran.returncode, ran.stdout), (2, ""))
        self.assertRegex(ran.stderr, "^memory: .*\n$")

    def test_hostile_input_needs_a_program(self) -> None:
        for program in ("/nowhere/hippo", "/usr"):
            ran = run(sys.executable, ".ci/hostile_input.py", HIPPO_PROGRAM=program)
            self.assertEqual((ran.returncode, ran.stdout), (2, ""))
            self.assertEqual(ran.stderr, f"hostile input: {program} is not a program (./hippo --build builds it)\n")


class Answers(unittest.TestCase):
    """The answers of `repair` that .ci/hostile_input.py accepts."""

    def test_answers_of_the_readme_are_accepted(self) -> None:
        for answer in (
            Answer(0, b"text", COUNTS),
            Answer(5, b"", "hippo: program line 3: syntax\n"),
            Answer(5, b"", "hippo: program: no main at program\n"),
            Answer(6, b"", "hippo: trace entry 2: extra\n"),
        ):
            self.assertTrue(hostile_input.is_answer(answer), answer)

    def test_other_answers_are_not(self) -> None:
        for answer in (
            Answer(0, b"", COUNTS),
            Answer(0, b"text", ""),
            Answer(5, b"text", "hippo: program line 3: syntax\n"),
            Answer(5, b"", "hippo: trace entry 2: extra\n"),
            Answer(6, b"", "hippo: program line 3: syntax\n"),
            Answer(5, b"", "hippo: program: shape at program\n"),
            Answer(-11, b"", ""),
        ):
            self.assertFalse(hostile_input.is_answer(answer), answer)


class Texts(unittest.TestCase):
    """The files that are made."""

    def test_each_damage_changes_one_byte(self) -> None:
        found = list(hostile_input.damages(b"a\n"))
        self.assertEqual(len(found), len(set(found)))
        self.assertEqual(len(found), 2 * len(hostile_input.DAMAGES) - 1)
        for place, text in found:
            self.assertEqual([index for index, byte in enumerate(b"a\n") if text[index] != byte], [place])

    def test_lines_count_from_one(self) -> None:
        self.assertEqual(
            [hostile_input.last_line(text) for text in (b"", b"a", b"a\n", b"a\nb", b"a\nb\n")], [1, 1, 1, 2, 2]
        )

    def test_a_large_text_has_its_size_and_not_more(self) -> None:
        self.assertEqual(hostile_texts.filled(b"<", b"ab", b">", 9), b"<ababab>")
        for large in hostile_texts.LARGE:
            size = len(large.text())
            self.assertTrue(15 * hostile_texts.MIB < size <= 16 * hostile_texts.MIB, (large.name, size))


if __name__ == "__main__":
    unittest.main()
