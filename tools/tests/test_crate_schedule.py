"""What tools/crate_schedule.py makes of small lists of crates."""

from __future__ import annotations

import contextlib
import io
import sys
import tempfile
import unittest
from pathlib import Path

sys.path.insert(0, str(Path(__file__).resolve().parent.parent))

import crate_schedule as tool  # noqa: E402

CRATES = "# all crates\nlow:\nleft: low std_of_the_kit\nright: low\ntop status=3: left right\ntests: top\n"
WEIGHTS = "# seconds\nlow 10\nleft 5\nright 7.5\ntop 2\n"


def graph(top: str | None = "top") -> tool.Graph:
    """The graph of the texts above."""
    return tool.graph_of(tool.read_crates(CRATES), tool.read_weights(WEIGHTS), top)


class Reading(unittest.TestCase):
    """The two files, and what is refused in them."""

    def test_libraries_of_the_kit_are_left_out(self) -> None:
        self.assertEqual(tool.read_crates(CRATES)["left"], ["low"])

    def test_flags_of_a_crate_are_no_part_of_its_name(self) -> None:
        self.assertEqual(tool.read_crates(CRATES)["top"], ["left", "right"])

    def test_a_line_without_a_colon_is_refused(self) -> None:
        with self.assertRaisesRegex(tool.Refused, "low high"):
            tool.read_crates("low high\n")

    def test_weights_that_are_no_numbers_are_refused(self) -> None:
        for line in ("low", "low ten", "low -1", "low 1 2", "low nan", "low inf"):
            with self.subTest(line), self.assertRaises(tool.Refused):
                tool.read_weights(line)

    def test_a_circle_is_refused_with_its_crates(self) -> None:
        with self.assertRaisesRegex(tool.Refused, "a b a"):
            tool.below({"a": ["b"], "b": ["a"]}, "a")

    def test_a_crate_without_weight_is_refused_below_a_top(self) -> None:
        with self.assertRaisesRegex(tool.Refused, "tests"):
            graph("tests")

    def test_what_has_no_weight_is_left_out_where_no_top_is_given(self) -> None:
        self.assertNotIn("tests", graph(None).order)


class Chains(unittest.TestCase):
    """Longest chains, and the total."""

    def test_the_chain_takes_the_dearer_way(self) -> None:
        self.assertEqual(graph().chain(), ["low", "right", "top"])

    def test_the_total_counts_each_crate_once(self) -> None:
        self.assertEqual(graph().total, 24.5)

    def test_each_crate_has_its_own_longest_chain(self) -> None:
        self.assertEqual(graph().through(), {"low": 19.5, "left": 17.0, "right": 19.5, "top": 19.5})


class Schedules(unittest.TestCase):
    """When each crate is proved, and on which processor."""

    def test_one_processor_takes_the_total(self) -> None:
        self.assertEqual(tool.makespan(tool.schedule(graph(), 1)), 24.5)

    def test_two_processors_take_the_chain(self) -> None:
        self.assertEqual(tool.makespan(tool.schedule(graph(), 2)), 19.5)

    def test_no_crate_begins_before_its_libraries_are_proved(self) -> None:
        ends = {piece.name: piece.end for piece in tool.schedule(graph(), 2)}
        for piece in tool.schedule(graph(), 2):
            for low in graph().libraries[piece.name]:
                self.assertLessEqual(ends[low], piece.start)

    def test_the_longest_chain_goes_first_among_those_that_become_ready_together(self) -> None:
        crates: dict[str, list[str]] = {"a": [], "b": [], "short": ["a"], "long1": ["b"], "long2": ["b"]}
        made = tool.graph_of(crates, {"a": 5, "b": 5, "short": 1, "long1": 9, "long2": 9}, None)
        starts = {piece.name: piece.start for piece in tool.schedule(made, 2)}
        self.assertEqual((starts["long1"], starts["long2"], starts["short"]), (5, 5, 14))

    def test_each_crate_is_proved_once_and_for_its_seconds(self) -> None:
        pieces = tool.schedule(graph(), 2)
        self.assertEqual({piece.name: piece.end - piece.start for piece in pieces}, graph().weights)
        self.assertEqual(len(pieces), len(graph().order))

    def test_a_processor_proves_one_crate_at_a_time(self) -> None:
        pieces = sorted(tool.schedule(graph(), 2), key=lambda piece: (piece.processor, piece.start))
        for first, second in zip(pieces, pieces[1:]):
            if first.processor == second.processor:
                self.assertLessEqual(first.end, second.start)


class Command(unittest.TestCase):
    """The command on two files."""

    def run_on(self, crates: str, weights: str, *words: str) -> tuple[int, str, str]:
        """The exit code and both texts of the command on these files."""
        with tempfile.TemporaryDirectory() as room:
            (Path(room) / "crates.txt").write_text(crates, encoding="utf-8")
            (Path(room) / "weights.txt").write_text(weights, encoding="utf-8")
            order = ["--crates", f"{room}/crates.txt", "--weights", f"{room}/weights.txt", *words]
            with contextlib.redirect_stdout(io.StringIO()) as out, contextlib.redirect_stderr(io.StringIO()) as notes:
                code = tool.main(order)
        return code, out.getvalue(), notes.getvalue()

    def test_the_report_has_chain_total_and_schedules(self) -> None:
        code, out, _ = self.run_on(CRATES, WEIGHTS)
        self.assertEqual(code, 0)
        self.assertIn("longest chain: 20 s, 3 crates\n", out)
        self.assertIn("total: 24 s, 0.4 min, 4 crates\n", out)
        self.assertIn("4 processors: 20 s, 0.3 min\n", out)

    def test_a_refusal_has_its_cause_and_no_report(self) -> None:
        code, out, notes = self.run_on(CRATES, "low ten\n")
        self.assertEqual((code, out), (1, ""))
        self.assertIn("low ten", notes)

    def test_no_processors_are_refused(self) -> None:
        for words in ("0", "x", "2,", "-1"):
            with self.subTest(words):
                code, out, notes = self.run_on(CRATES, WEIGHTS, f"--processors={words}")
                self.assertEqual((code, out), (1, ""))
                self.assertEqual(notes, f"crate_schedule: not numbers of processors, such as 2,4: {words}\n")

    def test_an_unknown_top_is_refused(self) -> None:
        code, out, notes = self.run_on(CRATES, WEIGHTS, "--top", "high")
        self.assertEqual((code, out, notes), (1, "", "crate_schedule: no such crate: high\n"))

    def test_a_file_that_cannot_be_read_is_refused(self) -> None:
        code, out, notes = self.run_on(CRATES, WEIGHTS, "--crates", "/nowhere/crates.txt")
        self.assertEqual((code, out), (1, ""))
        self.assertIn("/nowhere/crates.txt", notes)


class Repository(unittest.TestCase):
    """The crates and weights of this repository."""

    def test_each_crate_of_the_program_has_a_weight(self) -> None:
        crates = tool.read_crates((tool.TOP / "crates.txt").read_text(encoding="utf-8"))
        weights = tool.read_weights((tool.TOP / "tools" / "crate_weights.txt").read_text(encoding="utf-8"))
        made = tool.graph_of(crates, weights, "hippo")
        self.assertGreater(made.total, 0)
        for count in (1, 2, 4, 100):
            least = max(made.total / count, max(made.ends().values()))
            most = made.total / count + max(made.ends().values())
            self.assertTrue(least - 1e-6 <= tool.makespan(tool.schedule(made, count)) <= most + 1e-6, count)

    def test_the_chain_is_the_heaviest_way_through_the_crates(self) -> None:
        crates = tool.read_crates((tool.TOP / "crates.txt").read_text(encoding="utf-8"))
        weights = tool.read_weights((tool.TOP / "tools" / "crate_weights.txt").read_text(encoding="utf-8"))
        made = tool.graph_of(crates, weights, "hippo")
        chain = made.chain()
        for low, high in zip(chain, chain[1:]):
            self.assertIn(low, crates[high])
        heaviest: dict[str, float] = {}

        def way(name: str) -> float:
            if name not in heaviest:
                heaviest[name] = weights[name] + max(map(way, crates[name]), default=0.0)
            return heaviest[name]

        self.assertAlmostEqual(sum(weights[name] for name in chain), max(map(way, made.order)))


if __name__ == "__main__":
    unittest.main()
