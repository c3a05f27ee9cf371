"""The list of files to read, of a small repository and of this one."""

from __future__ import annotations

import contextlib
import io
import sys
import tempfile
import unittest
from pathlib import Path

sys.path.insert(0, str(Path(__file__).resolve().parent.parent))

import reading_list as tool  # noqa: E402

FILES = {
    "crates.txt": "# Two crates.\nlow:\nhigh: low\n",
    "crates/low/specs/Lib.antt": "pub mod Base\n",
    "crates/low/specs/Base.antt": "use Rattle.std.specs.Prelude.{ℕ}\nuse Rattle.low.specs.declared.kind.Kind.{Kind}\n",
    "crates/low/specs/Other.antt": "use Rattle.low.specs.Base.{a}\n",
    "crates/low/src/kind.rt": "pub enum Kind { A }\n",
    "crates/high/specs/Top.antt": "use Rattle.high.specs.Middle.{m}\nuse Rattle.low.specs.Base as base\n",
    "crates/high/specs/Middle.antt": "use Rattle.low.specs.Base.{a}\n",
}
LIST = ["low/specs/Base.antt", "high/specs/Middle.antt", "high/specs/Top.antt", "low/src/kind.rt"]
PAGE = "".join(f"- `{name}`\n" for name in LIST)


class Small(unittest.TestCase):
    """A repository of two crates."""

    def setUp(self) -> None:
        folder = tempfile.TemporaryDirectory()
        self.addCleanup(folder.cleanup)
        self.top = Path(folder.name)
        for name, text in FILES.items():
            self.write(name, text)

    def write(self, name: str, text: str) -> Path:
        """Writes a file of the repository."""
        file = self.top / name
        file.parent.mkdir(parents=True, exist_ok=True)
        file.write_text(text, encoding="utf-8")
        return file

    def run_tool(self, *words: str) -> tuple[int, str, str]:
        """The exit code, the output and the notes of a call on this repository."""
        out, notes = io.StringIO(), io.StringIO()
        with contextlib.redirect_stdout(out), contextlib.redirect_stderr(notes):
            code = tool.main(["--crates", str(self.top / "crates.txt"), "--root", "high/specs/Top.antt", *words])
        return code, out.getvalue(), notes.getvalue()

    def test_each_file_comes_after_those_it_uses(self) -> None:
        self.assertEqual(self.run_tool(), (0, PAGE, ""))

    def test_a_page_with_the_list_passes(self) -> None:
        page = self.write("page.md", f"# Files\n\n{PAGE}")
        self.assertEqual(self.run_tool("--check", str(page)), (0, "", ""))

    def test_a_page_without_a_file_is_told(self) -> None:
        page = self.write("page.md", PAGE.replace("- `low/specs/Base.antt`\n", ""))
        self.assertEqual(self.run_tool("--check", str(page)), (1, f"{page}: missing: low/specs/Base.antt\n", ""))

    def test_a_page_with_a_file_too_many_is_told(self) -> None:
        page = self.write("page.md", PAGE + "- `low/specs/Other.antt`\n")
        self.assertEqual(self.run_tool("--check", str(page)), (1, f"{page}: not needed: low/specs/Other.antt\n", ""))

    def test_a_page_in_another_order_is_told(self) -> None:
        page = self.write("page.md", "".join(f"- `{name}`\n" for name in reversed(LIST)))
        self.assertEqual(self.run_tool("--check", str(page)), (1, f"{page}: the order differs\n", ""))

    def test_a_definition_that_rests_on_a_proof_is_refused(self) -> None:
        self.write("crates/high/specs/Middle.antt", "use Rattle.low.proofs.Lemma.{l}\n")
        code, out, notes = self.run_tool()
        self.assertEqual((code, out), (2, ""))
        self.assertIn("high/specs/Middle.antt: a definition rests on low.proofs.Lemma", notes)

    def test_a_module_without_a_file_is_refused(self) -> None:
        self.write("crates/high/specs/Middle.antt", "use Rattle.low.specs.Absent.{l}\n")
        code, out, notes = self.run_tool()
        self.assertEqual((code, out), (2, ""))
        self.assertIn("no file for low.specs.Absent", notes)


class Own(unittest.TestCase):
    """This repository."""

    def test_the_page_has_the_list(self) -> None:
        out = io.StringIO()
        with contextlib.redirect_stdout(out):
            code = tool.main(["--check", str(tool.TOP / "docs" / "TO_READ.md")])
        self.assertEqual((code, out.getvalue()), (0, ""))


if __name__ == "__main__":
    unittest.main()
