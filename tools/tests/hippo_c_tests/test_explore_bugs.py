"""What the engine of explore finds in programs with one bug, and that it finds nothing in their correct twins."""
import os
import re
import unittest
from concurrent.futures import ThreadPoolExecutor

from .explore_case import BUGS, NAMES, BugCase, numbers_of

from hippo_c.native import Engine
from hippo_c.program import Program

# What the given input does not show: the bug needs another input, or only an execution without a power cut tells its output from a right one.
NEED_SEARCH = {"undo_order", "rare_branch"}
NEED_OUTPUTS = {"stale_pointer"}
NEED_STATUS = {"status"}
ONLY_IN_RECOVERY = {"recovery_flush", "two_phase", "third_crash"}
SMALL = ("--least", "1", "--greatest", "40")
# Flushes and fences of correct recoveries, by program, function and place in it: without one of them only a crash in the recovery fails.
NEEDED_IN_RECOVERY = (
    ("log_flush", "recover", 0),
    ("undo_order", "recover", 0),
    ("recovery_flush", "undo", 0),
    ("recovery_flush", "undo", 2),
    ("missed_range", "recover", 0),
)
FLUSH_OR_FENCE = re.compile(r"call void @pmem_(flush|drain|persist)\(")


def without(text: str, function: str, number: int) -> str:
    """A lowered text without one of the flushes and fences of a function, counted from 0."""
    start = next(found.start() for found in re.finditer(rf"^define .*@{function}\(", text, re.M))
    found = list(FLUSH_OR_FENCE.finditer(text, start, text.index("\n}", start)))[number]
    first, last = text.rindex("\n", 0, found.start()), text.index("\n", found.start())
    return text[:first] + text[last:]


class Bugs(BugCase):
    """Each program with its bug, and its twin."""

    def test_the_given_inputs(self) -> None:
        self.assertGreaterEqual(len(NAMES), 30)

        def of_both(name: str) -> tuple[str, bool, list[str], bool]:
            """Whether the program with the bug fails, the failures of its twin, and whether all images of the twin are tried."""
            options = ("--runs", "30000", "--crashes", "3", "--status", str(int(name in NEED_STATUS)))
            found = self.failures(self.engine_of(name, 1), "replay", numbers_of(name), *options)
            twin = self.lines(self.engine_of(name, 0), "replay", numbers_of(name), *options)
            return (
                name,
                found > 0,
                [line for line in twin if line.startswith(("failure", "refused"))],
                " left=0" in twin[-1],
            )

        # Most of the time goes into builds, which are processes of their own.
        with ThreadPoolExecutor(2) as workers:
            ended = list(workers.map(of_both, NAMES))
        self.assertEqual(ended, [(name, name not in NEED_SEARCH | NEED_OUTPUTS, [], True) for name in NAMES])

    def test_bugs_that_need_another_input(self) -> None:
        for name in sorted(NEED_SEARCH):
            options = ("--runs", "60000", "--crashes", "2", *SMALL)
            self.assertGreater(self.failures(self.engine_of(name, 1), "explore", numbers_of(name), *options), 0, name)
            self.assertEqual(self.failures(self.engine_of(name, 0), "explore", numbers_of(name), *options), 0, name)

    def test_twins_on_other_inputs(self) -> None:
        for name in NAMES:
            with self.subTest(name=name):
                options = ("--runs", "12000", "--crashes", "3", "--status", str(int(name in NEED_STATUS)))
                lines = self.lines(self.engine_of(name, 0), "explore", numbers_of(name), *options)
                self.assertFalse([line for line in lines if line.startswith(("failure", "report", "refused"))])

    def test_a_flush_or_fence_that_only_a_crash_in_recovery_misses(self) -> None:
        for name, function, number in NEEDED_IN_RECOVERY:
            with self.subTest(name=name, number=number):
                text = self.lower(f"{BUGS}/{name}.c", "--", "-DVALID")
                engine = Engine(Program(without(text, function, number)), self.folder)
                self.assertEqual(engine.check(numbers_of(name)), [])
                for levels in (1, 2):
                    found = self.failures(
                        engine, "replay", numbers_of(name), "--runs", "30000", "--crashes", str(levels)
                    )
                    self.assertEqual(found > 0, levels == 2, levels)

    def test_bugs_in_recovery_need_a_second_crash(self) -> None:
        for name in sorted(ONLY_IN_RECOVERY):
            engine = self.engine_of(name, 1)
            least = 3 if name == "third_crash" else 2
            for levels in (1, 2, 3):
                found = self.failures(engine, "replay", numbers_of(name), "--runs", "30000", "--crashes", str(levels))
                self.assertEqual(found > 0, levels >= least, (name, levels))

    def test_a_long_recovery_and_one_that_does_not_end(self) -> None:
        for name, bug, wanted in (("long_recovery", 0, False), ("endless_recovery", 1, True)):
            lines = self.lines(self.engine_of(name, bug), "replay", numbers_of(name), "--runs", "30000")
            found = [line for line in lines if line.startswith("failure ")]
            self.assertEqual(any(" ending=cut " in line for line in found), wanted, (name, found))
            self.assertIn(" left=0 ", lines[-1])

    def test_a_power_cut_before_a_print(self) -> None:
        for bug in (0, 1):
            engine = self.engine_of("early_second", bug)
            found = self.failures(engine, "replay", numbers_of("early_second"), "--runs", "30000")
            self.assertEqual(found > 0, bool(bug))

    def test_operations_that_only_their_outputs_show(self) -> None:
        for name in sorted(NEED_OUTPUTS):
            for bug in (1, 0):
                lines = self.lines(
                    self.engine_of(name, bug), "replay", numbers_of(name), "--runs", "30000", "--atomic", "1"
                )
                self.assertEqual(any(line.startswith("outputs ") for line in lines), bool(bug), (name, bug))

    def test_marked_operations_and_acknowledgements(self) -> None:
        text = (
            "#include <hippo.h>\nPERSISTENT struct { _Alignas(64) long a; _Alignas(64) long b; } s;\nint main(void) {\n  for (;;) {\n"
            "    hippo_op();\n    long n = read_i64();\n    if (n == 0) return 0;\n    if (n < 9) {\n      s.a += n;\n"
            "      if (!EARLY) pmem_persist(&s.a, 8);\n      print_i64(n);\n      if (EARLY) pmem_persist(&s.a, 8);\n"
            "      if (TORN) { s.b += n; pmem_persist(&s.b, 8); }\n    } else print_i64(s.a * 100 + s.b);\n  }\n}\n"
        )
        self.write("a.c", text)
        every: tuple[tuple[int, int, set[str]], ...] = ((0, 0, set()), (1, 0, {"1"}), (0, 1, {"1"}))
        for early, torn, wanted in every:
            folder = self.path(f"{early}{torn}")
            os.makedirs(folder)
            engine = Engine(self.program(self.path("a.c"), "--", f"-DEARLY={early}", f"-DTORN={torn}"), folder)
            lines = self.lines(engine, "replay", [3, 9, 4, 9, 0], "--runs", "30000")
            found = {line.split("acknowledged=")[1][0] for line in lines if line.startswith("outputs ")}
            self.assertTrue(wanted <= found and bool(found) == bool(wanted), (early, torn, found))

    def test_equal_words_give_equal_bytes(self) -> None:
        engine = self.engine_of("undo_order", 1)
        options = ("--runs", "5000", "--seed", "7")
        first = self.lines(engine, "explore", numbers_of("undo_order"), *options)
        self.assertEqual(self.lines(engine, "explore", numbers_of("undo_order"), *options), first)
        self.assertNotEqual(
            self.lines(engine, "explore", numbers_of("undo_order"), "--runs", "5000", "--seed", "8"), first
        )

    def test_bounds_of_numbers(self) -> None:
        engine = self.engine_of("seals", 0)
        for line in self.lines(
            engine, "explore", [1, 5, 0], "--runs", "3000", "--least", "0", "--greatest", "9", "--numbers", "12"
        ):
            if line.startswith("kept input="):
                numbers = [int(word) for word in line[11:].split(",") if word]
                self.assertLessEqual(len(numbers), 12)
                self.assertTrue(all(0 <= number <= 9 for number in numbers), line)


if __name__ == "__main__":
    unittest.main()
