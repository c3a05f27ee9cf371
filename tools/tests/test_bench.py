"""What bench/figures makes its figures of: the programs that it writes, and how it reads times."""

from __future__ import annotations

import contextlib
import io
import shutil
import subprocess
import sys
import tempfile
import unittest
from pathlib import Path
from typing import Any

TOP = Path(__file__).resolve().parents[2]
sys.path.insert(0, str(TOP / "bench"))

import counting  # noqa: E402
import growth  # noqa: E402
import interpreter  # noqa: E402
import measuring  # noqa: E402
import native  # noqa: E402
import shapes  # noqa: E402
import texts  # noqa: E402


def assembles(text: str) -> str:
    """What LLVM's assembler says of a text; nothing where it takes it."""
    done = subprocess.run(
        ["llvm-as-19", "-o", "/dev/null", "-"], input=text, capture_output=True, text=True, check=False
    )
    return done.stderr


class Programs(unittest.TestCase):
    """Each text is one that LLVM takes."""

    def setUp(self) -> None:
        """Needs the assembler."""
        if shutil.which("llvm-as-19") is None:
            self.skipTest("llvm-as-19 is not installed")

    def test_shapes(self) -> None:
        for shape in growth.SHAPES:
            for size in (2, 7):
                with self.subTest(shape.name, size=size):
                    self.assertEqual(assembles(shape.text(size)), "")

    def test_the_other_programs(self) -> None:
        for text in (
            shapes.calls_with_block(3, 100),
            shapes.asserts_over_region(128),
            shapes.untouched_region(64),
            shapes.turns(3),
        ):
            self.assertEqual(assembles(text), "")

    def test_texts_of_a_form(self) -> None:
        for name, form in texts.FORMS.items():
            with self.subTest(name):
                text = "".join(texts.text_of(form, 4000))
                self.assertEqual(assembles(text), "")
                self.assertLessEqual(len(text), 4000)
                self.assertGreater(len(text), 2500)

    def test_loops_for_the_interpreter_have_no_function_outside(self) -> None:
        for name, (turns, *_) in interpreter.LOOPS.items():
            with self.subTest(name):
                text = interpreter.for_interpreter((TOP / "bench" / f"{name}.ll").read_text(), turns)
                self.assertEqual(assembles(text), "")
                self.assertNotIn("declare", text)

    def test_programs_whose_instructions_are_counted(self) -> None:
        for name, program in counting.PROGRAMS.items():
            with self.subTest(name):
                self.assertEqual(assembles(program.text()), "")

    def test_programs_that_run_in_rounds(self) -> None:
        for name in native.ROUNDS:
            with self.subTest(name):
                text = (TOP / "examples" / "from_c" / f"{name}.ll").read_text()
                self.assertEqual(assembles(native.longer(name, text)), "")


class Sizes(unittest.TestCase):
    """What grows with a size is of that size."""

    def test_a_wide_call_has_its_arguments(self) -> None:
        self.assertEqual(shapes.wide_call(5).count("ptr @x"), 5)
        self.assertEqual(shapes.wide_call_of_null(5).count("ptr null"), 5)

    def test_a_switch_has_its_cases(self) -> None:
        self.assertEqual(shapes.wide_switch(9).count("label %again\n"), 9)

    def test_the_smallest_scale_leaves_each_shape_two_sizes(self) -> None:
        hippo = measuring.Hippo("", "", 1, 0.001)
        for shape in growth.SHAPES:
            with self.subTest(shape.name):
                *_, before, largest = (hippo.size(size) for size in shape.sizes)
                self.assertGreater(largest, before)

    def test_inputs_are_as_long_as_they_say(self) -> None:
        self.assertEqual(len(native.numbers_of("undo", 4)), 1 + 3 * 4)
        self.assertEqual(native.numbers_of("store", 4), [8, 4, 37, 0])

    def test_each_turn_of_a_shape_stores_into_a_line_of_its_own(self) -> None:
        text = shapes.flushes_of_loose_lines(5)
        self.assertIn("call void @pmem_flush(ptr @x, i64 320)", text)
        self.assertIn("[5 x [8 x i64]]", text)
        self.assertIn("call void @pm_assert(ptr @x, i64 160000)", shapes.asserts_beside_loose_lines(5))


class Command(unittest.TestCase):
    """The words of bench/figures that are refused."""

    def refused(self, *words: str) -> str:
        """What the command writes to standard error, with nothing on standard output."""
        ran = subprocess.run(
            [sys.executable, "-B", str(TOP / "bench" / "figures"), *words], capture_output=True, text=True, check=False
        )
        self.assertNotEqual(ran.returncode, 0)
        self.assertEqual(ran.stdout, "")
        self.assertNotIn("Traceback", ran.stderr)
        return ran.stderr

    def test_numbers_out_of_their_range(self) -> None:
        for words in (["--runs", "0"], ["--runs", "-1"], ["--runs", "x"]):
            self.assertIn("a number from 1", self.refused(*words))
        for words in (["--scale", "0"], ["--scale", "2"], ["--scale", "nan"]):
            self.assertIn("a number from 0.001 to 1", self.refused(*words))

    def test_what_is_not_a_program(self) -> None:
        for program in ("/nowhere/hippo", str(TOP)):
            self.assertEqual(
                self.refused("--program", program), f"bench: {program} is not a program (./hippo --build builds it)\n"
            )


class Figures(unittest.TestCase):
    """How times become figures."""

    def test_the_exponent_is_the_larger_one_of_the_range_and_its_last_part(self) -> None:
        self.assertAlmostEqual(measuring.exponent([1, 4, 16], [1.0, 4.0, 16.0]), 1)
        self.assertAlmostEqual(measuring.exponent([1, 4, 16], [1.0, 1.0, 16.0]), 2)
        self.assertAlmostEqual(measuring.exponent([1, 4, 16], [1.0, 16.0, 16.0]), 1)

    def shown(self, measured: float, **asked: Any) -> str:
        """The line of a figure."""
        with contextlib.redirect_stdout(io.StringIO()) as out:
            measuring.show("a figure", measured, **asked)
        return out.getvalue()

    def test_a_figure_that_misses_its_goal_says_so(self) -> None:
        self.assertIn("missed", self.shown(1.2, most=1.1))
        self.assertNotIn("missed", self.shown(1.1, most=1.1))
        self.assertIn("missed", self.shown(24, least=25))
        self.assertNotIn("missed", self.shown(25, least=25))
        self.assertNotIn("missed", self.shown(1000))

    def test_a_command_that_fails_is_a_figure_that_is_missed(self) -> None:
        def fails() -> None:
            measuring.spent(measuring.Command(("false", "of", "this")))

        with contextlib.redirect_stdout(io.StringIO()) as out:
            measuring.figures("a figure", fails)
        self.assertRegex(out.getvalue(), "^a figure .* missed .*false of this ended with code 1")

    def test_a_command_has_its_input_and_its_code(self) -> None:
        self.assertGreaterEqual(
            measuring.spent(measuring.Command(("sh", "-c", "read a; exit $a"), code=3, input=self.three())), 0
        )

    def test_instructions_of_a_command_that_fails_are_not_counted(self) -> None:
        if shutil.which("valgrind") is None:
            self.skipTest("valgrind is not installed")
        with self.assertRaisesRegex(measuring.Missed, "callgrind ended with code 1"):
            counting.instructions(measuring.Command(("false",)))
        few, many = (
            counting.instructions(measuring.Command(("dd", "if=/dev/zero", "bs=1", f"count={count}")))
            for count in (10, 1000)
        )
        self.assertGreater(many, few + 990)

    def three(self) -> str:
        """A file with the number 3."""
        folder = tempfile.mkdtemp()
        self.addCleanup(shutil.rmtree, folder)
        file = Path(folder, "input")
        file.write_text("3\n", encoding="ascii")
        return str(file)


if __name__ == "__main__":
    unittest.main()
