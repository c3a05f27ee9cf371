"""The table of wrong tools and its page: each edit changes one place of today's text, names a test that exists, and was seen at the last trial."""
from __future__ import annotations

import sys
import tempfile
import unittest
from pathlib import Path

from clang_case import ClangCase
from wrong_tools import EDITS
from wrong_tools.copies import fault_of, run_test
from wrong_tools.edit import Edit
from wrong_tools.page import NOT_SEEN, NOT_TRIED, PAGE, counts, read_page, seen_by

sys.path.insert(0, str(Path(__file__).resolve().parents[2] / ".ci"))

import tools_tests  # noqa: E402


class Table(unittest.TestCase):
    """The edits."""

    def test_there_are_many_with_names_of_their_own(self) -> None:
        self.assertGreaterEqual(len(EDITS), 40)
        self.assertEqual(len({edit.name for edit in EDITS}), len(EDITS))

    def test_what_each_does_fits_into_a_table(self) -> None:
        for edit in EDITS:
            self.assertNotIn("|", edit.what, edit.name)

    def test_each_names_one_test(self) -> None:
        names = [test.id() for test in tools_tests.tests_in(tools_tests.selected([]))]
        for test in sorted({edit.test for edit in EDITS}):
            self.assertEqual(names.count(test), 1, test)


class Applies(ClangCase):
    """Each edit changes one place of today's text, and what it makes compiles."""

    def test_each_edit(self) -> None:
        for edit in EDITS:
            with self.subTest(edit.name):
                self.assertEqual(fault_of(edit), "")

    def test_what_does_not_apply(self) -> None:
        memory = "tools/runtime/memory.c"
        for file, old, new, fault in (
            (memory, "no such text", "", "has its text 0 times"),
            (memory, "memcpy", "", f"{memory} has its text "),
            (memory, "void *memcpy(", "void *memcpy(", "it changes nothing"),
            (memory, "void *memcpy(", "void *memcpy((", "error: "),
            ("tools/lowering/ends.py", "def ignore() -> None:", "def ignore( -> None:", "invalid syntax"),
            ("tools/no_such_file.py", "a", "b", "No such file"),
        ):
            self.assertIn(fault, fault_of(Edit("strange", "", file, old, new, "")))


TESTS = """import unittest
class Ends(unittest.TestCase):
    def test_passes(self): pass
    def test_fails(self): self.fail()
    def test_breaks(self): raise KeyError
    def test_is_skipped(self): self.skipTest('no tool')
    @unittest.expectedFailure
    def test_fails_as_expected(self): self.fail()
class Whole(Ends):
    @classmethod
    def setUpClass(cls): raise KeyError
"""


class Outcomes(unittest.TestCase):
    """Which tests pass and which fail; a test that is skipped or is not there does neither."""

    def test_of_each_end(self) -> None:
        with tempfile.TemporaryDirectory() as folder:
            (Path(folder) / "tools" / "tests").mkdir(parents=True)
            (Path(folder) / "tools" / "tests" / "test_ends.py").write_text(TESTS, encoding="utf-8")
            (Path(folder) / "tools" / "tests" / "test_broken.py").write_text(
                "import no_such_module\n", encoding="utf-8"
            )
            for test, wanted in (
                ("test_ends.Ends.test_passes", (True, False)),
                ("test_ends.Ends.test_fails", (False, True)),
                ("test_ends.Ends.test_breaks", (False, True)),
                ("test_ends.Whole.test_passes", (False, True)),
                ("test_ends.Ends.test_is_skipped", (False, False)),
                ("test_ends.Ends.test_fails_as_expected", (False, False)),
                ("test_ends.Ends.test_of_nothing", (False, False)),
                ("test_broken", (False, False)),
            ):
                with self.subTest(test):
                    self.assertEqual(run_test(Path(folder), test)[:2], wanted)


class Page(unittest.TestCase):
    """docs/WRONG_TOOLS.md."""

    def test_the_page_has_each_edit_and_no_test_misses_one(self) -> None:
        rows = read_page()
        self.assertEqual(list(rows), [edit.name for edit in EDITS])
        for edit in EDITS:
            with self.subTest(edit.name):
                self.assertEqual(rows[edit.name][:2], (edit.what, edit.file))
                self.assertNotEqual(rows[edit.name].result, NOT_SEEN)

    def test_tests_see_forty_at_least(self) -> None:
        rows = read_page()
        self.assertGreaterEqual(sum(row.result not in (NOT_SEEN, NOT_TRIED) for row in rows.values()), 40)
        self.assertIn(f"\n{counts(rows)}", PAGE.read_text(encoding="utf-8"))

    def test_it_names_the_test_of_each_edit(self) -> None:
        rows = read_page()
        for edit in EDITS:
            with self.subTest(edit.name):
                self.assertIn(rows[edit.name].result, (seen_by(edit), NOT_TRIED))


if __name__ == "__main__":
    unittest.main()
