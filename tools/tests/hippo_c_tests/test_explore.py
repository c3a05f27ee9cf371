"""The command explore: what it shows, and that hippo confirms it."""
import json
import re
import unittest

from .common import EXAMPLES
from .explore_case import BUGS, BugCase, numbers_of

from hippo_c import confirming
from hippo_c.exploring import united
from hippo_c.engine_lines import Reader
from hippo_c.findings import shortened
from hippo_c.native import Engine
from hippo_c.program import Program
from hippo_c.progress import Progress
from hippo_c.request import Request
from hippo_c.session import Session


class Images(BugCase):
    """Complete verdicts, with hippo as the measure."""

    def test_every_image_of_a_small_run_behaves_as_a_leaf(self) -> None:
        self.take("undo_log", "account.ll")
        recorded = self.hippo("record", "account.ll", "30").stdout
        self.write("a.trace", recorded)
        engine = Engine(Program(self.read("account.ll")), self.folder)
        summary = self.lines(engine, "replay", [30], "--runs", "100000", "--crashes", "1")[-1]
        counts = dict(word.split("=") for word in summary.split(" ")[1:])
        self.assertEqual(counts["left"], "0")
        endings = set()
        for entry, picks in all_images(recorded.rstrip("\n").split("\n")):
            ran = self.hippo("crash", "account.ll", "a.trace", str(entry), *picks)
            if ran.returncode != 13:  # no crash leaves that image
                endings.add(re.sub(r"(?m)^(START|REGISTER|IMAGE|STORE).*\n", "", ran.stdout) + str(ran.returncode))
        self.assertGreaterEqual(int(counts["behaviours"]), len(endings))

    def test_the_ring_buffer(self) -> None:
        engine = Engine(self.program(f"{EXAMPLES}/ring_buffer/ring.c"), self.folder)
        lines = self.lines(engine, "replay", [12, -5, 3, -10, 0], "--runs", "100000", "--crashes", "1")
        self.assertRegex(
            lines[-1], r" points=31 images=454271 behaviours=253 failing=\d+ large=0 left=0 all_points=31$"
        )


def all_images(entries: list[str]) -> list[tuple[int, list[str]]]:
    """Every entry of a trace with stores, with no line picked and with each line alone at each number of stores."""
    found: list[tuple[int, list[str]]] = []
    counts: dict[int, int] = {}
    for number, entry in enumerate(entries, 1):
        if entry.startswith("STORE"):
            line = (int(entry.split(";")[1], 16) - (1 << 32)) // 64
            counts[line] = counts.get(line, 0) + 1
            found.append((number, []))
            found += [(number, [f"{line}:{upto}"]) for line, upto in counts.items()]
    return found


class Confirming(BugCase):
    """What hippo does not confirm is not shown."""

    def confirmed(self, name: str, change: tuple[str, str] = ("", "")) -> confirming.Confirmed:
        """What hippo confirms of the answer of the engine, after a change of that answer."""
        session = self.session(name)
        engine = Engine(session.program, self.folder)
        reader = Reader(engine.sites)
        for line in self.lines(engine, "replay", numbers_of(name), "--runs", "20000"):
            reader.take(re.sub(change[0], change[1], line) if change[0] else line)
        return confirming.Confirming(session).confirm(reader.found, [])

    def test_failures_are_confirmed_by_runs_of_hippo(self) -> None:
        for name in ("seals", "recovery_flush", "lost_acknowledgement", "early_second", "endless_recovery"):
            confirmed = self.confirmed(name)
            self.assertTrue(confirmed.failures, name)
            self.assertEqual(confirmed.refused, 0, name)

    def test_a_changed_answer_is_not_shown(self) -> None:
        for change in ((r"ending=unreachable", "ending=divzero"), (r"cuts=\d+", "cuts=1"), (r"input=1", "input=2")):
            confirmed = self.confirmed("seals", change)
            self.assertEqual(confirmed.failures, [], change)
            self.assertGreater(confirmed.refused, 0, change)

    def test_a_changed_report_is_not_shown(self) -> None:
        self.take("from_c", "log.c")
        session = Session(Request([self.path("log.c")], folder=self.folder), Progress(shown=False))
        engine = Engine(session.program, self.folder)
        lines = self.lines(engine, "replay", [], "--runs", "2000", "--crashes", "0")
        for change, refused in (("", 0), ("missing=flush", 1)):
            reader = Reader(engine.sites)
            for line in lines:
                reader.take(line.replace(change, "missing=both") if change else line)
            confirmed = confirming.Confirming(session).confirm(reader.found, [])
            self.assertEqual(confirmed.refused > 0, bool(refused), change)

    def test_one_changed_byte_of_a_native_trace_is_refused(self) -> None:
        session = self.session("seals")
        engine = Engine(session.program, self.folder)
        engine.record(numbers_of("seals"), self.path("n.trace"))
        text = self.read("n.trace")
        self.assertEqual(self.hippo("check", session.text_path, self.path("n.trace")).returncode, 0)
        place = text.index("STORE") + 20
        self.write("changed.trace", text[:place] + ("1" if text[place] != "1" else "2") + text[place + 1 :])
        self.assertEqual(self.hippo("check", session.text_path, self.path("changed.trace")).returncode, 6)

    def test_recursion_of_any_depth_is_one_path(self) -> None:
        store, call, main = ("f", "e", 1), ("f", "e", 2), ("main", "e", 0)
        self.assertEqual(shortened((store, call, call, call, main)), shortened((store, call, main)))


class Command(BugCase):
    """The command line."""

    def test_a_bug_in_recovery_is_shown_with_its_lines(self) -> None:
        ran = self.bug(
            "recovery_flush", "--runs", "4000", "--json", "a.json", "--sarif", "a.sarif", "--html", "a.html", code=1
        )
        self.assertRegex(
            ran.stdout,
            r"recovery_flush\.c:22:\d+: error: after a power cut, and another one in the recovery here, the next run fails",
        )
        self.assertIn("note: the run from that image ends here", ran.stdout)
        self.assertRegex(ran.stdout, r"note: this store to 'bank\.balances\[\d+\]' is lost")
        again = self.group_in(r"see it again: hippo-c ([^\n]*)", ran.stdout).split(" ")
        self.assertIn("after 2 power cuts the next run fails", self.hippo_c(*again, code=1).stdout)
        answer = json.loads(self.read("a.json"))
        self.assertEqual(len(answer["failures"][0]["cuts"]), 2)
        self.assertEqual(json.loads(self.read("a.sarif"))["runs"][0]["results"][0]["ruleId"], "power-cut")
        self.assertIn("<h2>Power cuts</h2>", self.read("a.html"))

    def test_nothing_found_is_no_proof(self) -> None:
        ran = self.hippo_c(
            "explore",
            f"{BUGS}/seals.c",
            "--input",
            "1",
            "5",
            "2",
            "0",
            "--runs",
            "3000",
            "--range",
            "1-40",
            "--show-missed",
            "--",
            "-DVALID",
            code=0,
        )
        self.assertRegex(ran.stdout, r"^no durability bug on [\d,]+ runs; this is no proof: \d+ blocks? never ran\n")
        self.assertIn("never ran: ", ran.stdout)

    def test_a_corpus_is_kept_and_repaired(self) -> None:
        self.take("from_c", "undo.c")
        ran = self.hippo_c(
            "explore",
            "undo.c",
            "--input",
            "1",
            "0",
            "1",
            "5",
            "--runs",
            "6000",
            "--corpus",
            "c",
            "--crashes",
            "0",
            code=1,
        )
        self.assertRegex(ran.stdout, r"\[missing-\w+(-and-fence|-flush)?, \d+ of \d+ inputs?\]")
        self.assertIn("one repair for all of them: hippo-c repair undo.c --inputs c -o repaired.o", ran.stdout)
        self.hippo_c("repair", "undo.c", "--inputs", "c", "-o", "r.ll", code=0)
        after = self.hippo_c(
            "explore", "r.ll", "--input", "1", "0", "1", "5", "--runs", "6000", "--seed", "2", "--crashes", "0", code=0
        )
        self.assertIn("no durability bug", after.stdout)

    def test_a_corpus_has_no_input_that_does_not_end(self) -> None:
        self.write(
            "a.c",
            "#include <hippo.h>\nPERSISTENT long cell;\nint main(void) {\n  for (long left = read_i64(); left > 0; left--) {\n"
            "    cell++;\n    pmem_persist(&cell, 8);\n    if (cell == 50) __builtin_trap();\n  }\n  return 0;\n}\n",
        )
        ran = self.hippo_c(
            "explore", "a.c", "--input", "3", "--runs", "1500", "--crashes", "0", "--corpus", "c", code=0
        )
        self.assertRegex(ran.stdout, r"the run of \d+ kept inputs? traps, for example of --input \d+")
        self.assertTrue(all(int(line) < 50 for line in self.read("c").split()), self.read("c"))

    def test_a_corpus_is_no_given_input(self) -> None:
        words = (
            "explore",
            f"{BUGS}/rare_branch.c",
            "--input",
            "1",
            "2",
            "0",
            "--runs",
            "60",
            "--crashes",
            "0",
            "--json",
            "-",
        )
        alone = json.loads(self.hippo_c(*words, code=0).stdout)["covered"]
        self.write("c", "1 2 2 0\n1 3 0\n1 2 0\n")
        beside = json.loads(self.hippo_c(*words, "--corpus", "c", code=0).stdout)["covered"]
        self.assertEqual(beside["given_blocks"], alone["given_blocks"])
        self.assertEqual(self.read("c").split("\n")[0], "1 2 0")
        self.assertIn("1 2 2 0\n", self.read("c"))

    def test_merging_does_not_depend_on_the_order(self) -> None:
        self.take("from_c", "undo.c")
        self.write("a", "1 0 1 5\n2 3 4 5 1 1 1\n")
        self.write("b", "0\n1 0 1 5\n")
        texts = []
        for number, order in enumerate((("a", "b"), ("b", "a"))):
            ran = self.hippo_c(
                "explore", "undo.c", "--merge", *order, "--runs", "500", "--corpus", f"m{number}", code=1
            )
            texts.append((ran.stdout.replace(f"m{number}", "m"), self.read(f"m{number}")))
        self.assertEqual(texts[0], texts[1])
        self.assertEqual(united([[1], [0], [1]]), [[0], [1]])

    def test_given_inputs_must_end(self) -> None:
        self.take("from_c", "undo.c")
        self.refused(
            'the run of the given input ends with "trap input"', "explore", "undo.c", "--input", "5", "--runs", "10"
        )

    def test_an_operation_that_a_power_cut_leaves_half_done(self) -> None:
        ran = self.hippo_c(
            "explore",
            f"{BUGS}/stale_pointer.c",
            "--input-file",
            f"{BUGS}/stale_pointer.in",
            "--merge",
            f"{BUGS}/stale_pointer.in",
            "--atomic",
            "--runs",
            "3000",
            "--json",
            "a.json",
            "--",
            "-DBUG=1",
            code=1,
        )
        self.assertRegex(
            ran.stdout,
            r"stale_pointer\.c:\d+:\d+: error: after a power cut here operation \d is neither done nor not done",
        )
        self.assertIn("  the next run prints: ", ran.stdout)
        self.assertEqual(json.loads(self.read("a.json"))["outputs"][0]["acknowledged"], False)

    def test_assumptions_end_a_run_silently(self) -> None:
        self.write(
            "a.c",
            "#include <hippo.h>\nPERSISTENT long cell;\nint main(void) {\n  long n = read_i64();\n  hippo_assume(n >= 0 && n < 5);\n"
            "  if (n > 5) cell = n;\n  return 0;\n}\n",
        )
        ran = self.hippo_c("explore", "a.c", "--input", "1", "--runs", "2000", code=0)
        self.assertNotIn("traps", ran.stdout)

    def test_bad_words_are_refused(self) -> None:
        self.take("ring_buffer", "ring.c")
        for words, text in (
            (("--range", "5"), "--range 5: not A-B"),
            (("--range", "5-3"), "--range 5-3: not A-B"),
            (("--crashes", "5"), "'5' is not a number from 0 to 4"),
            (("--recover", "nothing"), "--recover nothing: the lowered text"),
            (("--merge", "nowhere"), "nowhere: no such corpus"),
            (("--runs", "0"), "'0' is not a number from 1"),
            (("--time", "0"), "'0' is not a number of seconds"),
        ):
            self.refused(text, "explore", "ring.c", *words, "--input", "3", "0")
        self.refused("--then and --prints need one entry", "crash", "ring.c", "--input", "3", "0", "--then", "9")


if __name__ == "__main__":
    unittest.main()
