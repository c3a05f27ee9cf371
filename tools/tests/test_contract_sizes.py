"""What tools/contract_sizes.py counts in small sources."""

from __future__ import annotations

import contextlib
import io
import sys
import tempfile
import unittest
from pathlib import Path

sys.path.insert(0, str(Path(__file__).resolve().parent.parent))

import contract_sizes as tool  # noqa: E402

SOURCE = """\
struct Pair;

impl Pair {
    /// A method with clauses over several lines.
    pub(crate) fn swap<F: Fn(u8, u8) -> u8>(
        &mut self,
        by: F, // one, two
        both: (u8, u8),
    ) -> Result<(), Fault>
        requires first { 0 < both.0 }
        ensures done { OnOk result (self.new.left
            ≡ self.old.right) }
    {
        let pair = [both.0, both.1];
        let step = move || requires { pre by } { by(pair[0], pair[1]) };
        step();
        Ok(())
    }

    fn none() {}
}

trait Sink {
    fn put(&mut self, bytes: &[u8]) -> bool
        ensures { result ≡ true };
}

fn law()
    ensures { Holds }
{}

fn plain(count: Vec<(u8, u8)>) -> u8 {
    0
}
"""


def functions() -> dict[str, tool.Function]:
    """The functions of the source by their names."""
    return {function.name: function for function in tool.functions_in(SOURCE)}


class Functions(unittest.TestCase):
    """The functions of a file and their sizes."""

    def test_each_function_is_found_once_with_its_line(self) -> None:
        found = [(function.name, function.line) for function in tool.functions_in(SOURCE)]
        self.assertEqual(found, [("swap", 5), ("none", 20), ("put", 24), ("law", 28), ("plain", 32)])

    def test_clauses_of_closures_do_not_count(self) -> None:
        self.assertEqual(functions()["swap"].clauses, 2)

    def test_a_declaration_of_a_trait_has_clauses_and_no_body(self) -> None:
        self.assertEqual((functions()["put"].clauses, functions()["put"].body), (1, 0))

    def test_commas_in_types_and_comments_part_no_parameters(self) -> None:
        counts = {name: function.parameters for name, function in functions().items()}
        self.assertEqual(counts, {"swap": 3, "none": 0, "put": 2, "law": 0, "plain": 1})

    def test_the_lines_between_the_braces_are_the_body(self) -> None:
        self.assertEqual([functions()[name].body for name in ("swap", "none", "law", "plain")], [4, 0, 0, 1])


class Excesses(unittest.TestCase):
    """What is too large in a file."""

    def test_a_size_at_its_limit_is_allowed(self) -> None:
        self.assertEqual(tool.excesses("pair.rt", SOURCE, tool.Limits(clauses=2, parameters=3, body=4, file=34)), [])

    def test_each_size_above_its_limit_has_its_place(self) -> None:
        lines = tool.excesses("pair.rt", SOURCE, tool.Limits(clauses=1, parameters=2, body=3, file=33))
        self.assertEqual(lines, ["pair.rt: 34 lines", "pair.rt:5: swap: 2 clauses, 3 parameters, 4 lines of body"])


class Command(unittest.TestCase):
    """The command over a folder of crates."""

    def run_on(self, *words: str) -> tuple[int, str, str]:
        """The exit code and both texts of the command over two crates, of which `low` has the source and a long definition."""
        with tempfile.TemporaryDirectory() as room:
            for crate, folder, name, text in [
                ("low", "src", "lib.rt", SOURCE),
                ("low", "specs/Laws", "Long.antt", "-- a law\n" * 40),
                ("top", "src", "lib.rt", "fn main() {}\n"),
            ]:
                path = Path(room) / crate / folder / name
                path.parent.mkdir(parents=True, exist_ok=True)
                path.write_text(text, encoding="utf-8")
            with contextlib.redirect_stdout(io.StringIO()) as out, contextlib.redirect_stderr(io.StringIO()) as notes:
                code = tool.main(["--crates", room, *words])
        return code, out.getvalue(), notes.getvalue()

    def test_nothing_too_large_is_said_by_the_exit_code_alone(self) -> None:
        self.assertEqual(self.run_on(), (0, "", ""))

    def test_what_is_too_large_stands_below_its_crate(self) -> None:
        out = "low:\n  src/lib.rt:5: swap: 3 parameters\n  specs/Laws/Long.antt: 40 lines\n"
        self.assertEqual(self.run_on("--parameters", "2", "--file", "39"), (1, out, ""))

    def test_one_crate_may_be_named(self) -> None:
        self.assertEqual(self.run_on("--crate", "top", "--parameters", "2"), (0, "", ""))

    def test_an_unknown_crate_is_refused(self) -> None:
        code, out, notes = self.run_on("--crate", "high")
        self.assertEqual((code, out), (2, ""))
        self.assertEqual(notes, "contract_sizes: no such crate: high\n")

    def test_a_missing_folder_is_refused(self) -> None:
        code, out, notes = self.run_on("--crates", "/nowhere/crates")
        self.assertEqual((code, out, notes), (2, "", "contract_sizes: no such folder: /nowhere/crates\n"))

    def test_a_source_that_cannot_be_read_is_refused_with_its_file(self) -> None:
        for source, reason in (
            (b"fn cut() {\n    0\n", "line 1: a function without an end"),
            (b"\n\nfn cut(", "line 3: a function without an end"),
            (b"// \xff\n", "can't decode byte 0xff"),
        ):
            with self.subTest(source), tempfile.TemporaryDirectory() as room:
                file = Path(room, "low", "src", "lib.rt")
                file.parent.mkdir(parents=True)
                file.write_bytes(source)
                code, out, notes = self.run_on("--crates", room)
                self.assertEqual((code, out), (2, ""))
                self.assertTrue(notes.startswith(f"contract_sizes: {file}: "), notes)
                self.assertIn(reason, notes)


if __name__ == "__main__":
    unittest.main()
