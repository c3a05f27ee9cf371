"""How explore ends: interrupts, equal answers for equal words, jobs, programs that the engine does not hold, and its marks in the C."""
import json
import os
import signal
import subprocess
import sys
import time
import unittest
import unittest.mock

from .common import TOOLS
from .explore_case import BUGS, BugCase

from hippo_c import exploring
from hippo_c.confirming import Confirming
from hippo_c.engine_lines import Reader
from hippo_c.native import Engine
from hippo_c.program import Program
from hippo_c.trouble import Trouble

SEALS = (f"{BUGS}/seals.c", "--input", "5", "1", "9", "0")
# The recovery goes on after the first number: it ends at the mark, or when the function returns.
LATE = """#include <hippo.h>

PERSISTENT struct {
  _Alignas(64) long is_valid;
  _Alignas(64) long saved;
  _Alignas(64) long cell;
} s;

__attribute__((noinline)) void recover(void) {
  if (s.is_valid) {
    s.cell = s.saved;
    pmem_flush(&s.cell, 8); // no fence
    s.is_valid = 0;
    pmem_persist(&s.is_valid, 8);
  }
  if (s.cell % 2) __builtin_trap();
#ifdef MARK
  hippo_recovered();
#endif
}

int main(void) {
  long count = read_i64();
  recover();
  for (long i = 0; i < count; i++) {
    s.saved = s.cell;
    pmem_persist(&s.saved, 8);
    s.is_valid = 1;
    pmem_persist(&s.is_valid, 8);
    s.cell++;
    pmem_persist(&s.cell, 8);
    s.cell++;
    pmem_persist(&s.cell, 8);
    s.is_valid = 0;
    pmem_persist(&s.is_valid, 8);
  }
  return 0;
}
"""


class Ends(BugCase):
    """The command, at its ends."""

    def test_an_interrupt_shows_what_was_confirmed(self) -> None:
        room = self.path("room")
        os.makedirs(room)
        command = [
            sys.executable,
            os.path.join(TOOLS, "hippo-c"),
            "explore",
            *SEALS,
            "--time",
            "600",
            "--corpus",
            self.path("corpus"),
            "--",
            "-DBUG=1",
            "-DVALID",
        ]
        process = subprocess.Popen(
            command,
            cwd=self.folder,
            stdin=subprocess.DEVNULL,
            stdout=subprocess.PIPE,
            stderr=subprocess.PIPE,
            text=True,
            env={**os.environ, "TMPDIR": room},
        )
        until = time.monotonic() + 300
        while not self.seeds_in(room) and time.monotonic() < until:
            time.sleep(0.1)
        time.sleep(3)
        process.send_signal(signal.SIGINT)
        out, notes = process.communicate(timeout=300)
        self.assertEqual((process.returncode, notes), (130, ""))
        self.assertRegex(out, r"seals\.c:\d+:\d+: error: after a power cut here the next run fails")
        self.assertIn("interrupted: the answer has what was found and confirmed until then", out)
        self.assertRegex(out, r", all confirmed by hippo; [1-9][\d,]* runs?\n")
        self.assertEqual(os.listdir(room), [])
        self.assertIn("5 1 9 0\n", self.read("corpus"))

    def test_an_interrupt_of_the_confirmation(self) -> None:
        session = self.session("seals")
        reader = Reader(self.engine_in(session).sites)
        for line in self.lines(self.engine_in(session), "replay", [5, 1, 9, 0], "--runs", "20000"):
            reader.take(line)
        confirming = Confirming(session)
        with unittest.mock.patch.object(confirming, "find_examples", side_effect=KeyboardInterrupt):
            answer = confirming.answer_for(reader.found, [[5, 1, 9, 0]])
        self.assertTrue(answer.interrupted)
        self.assertTrue(answer.failures)
        self.assertFalse(Confirming(session).answer_for(reader.found, []).interrupted)

    def seeds_in(self, room: str) -> bool:
        """Whether the engine has its inputs, so that it begins."""
        return any("seeds.in" in names for _, _, names in os.walk(room))

    def test_equal_words_give_equal_bytes(self) -> None:
        words = (*SEALS, "--runs", "1500", "--seed", "3", "--json", "-", "--", "-DBUG=1", "-DVALID")
        first = self.hippo_c("explore", *words, code=1).stdout
        self.assertEqual(self.hippo_c("explore", *words, code=1).stdout, first)
        self.assertTrue(json.loads(first)["failures"])

    def test_jobs_are_seeds_one_after_another(self) -> None:
        words = (f"{BUGS}/rare_branch.c", "--input", "1", "2", "0", "--runs", "400", "--crashes", "0")
        answers: list[set[str]] = []
        for jobs, seed in (("2", "4"), ("1", "4"), ("1", "5")):
            corpus = f"corpus.{len(answers)}"
            self.hippo_c("explore", *words, "--jobs", jobs, "--seed", seed, "--corpus", corpus, code=0)
            answers.append(set(self.read(corpus).split("\n")))
        self.assertEqual(answers[0], answers[1] | answers[2])

    def test_marks_of_the_end_of_the_recovery(self) -> None:
        self.write("late.c", LATE)
        for words, clang, found in (
            ((), (), False),
            (("--recover", "recover"), (), True),
            ((), ("--", "-DMARK"), True),
        ):
            ran = self.hippo_c(
                "explore", "late.c", "--input", "2", "--range", "0-3", "--runs", "3000", *words, *clang, code=int(found)
            )
            self.assertEqual("and another one in the recovery" in ran.stdout, found, (words, clang))

    def test_a_status_counts_where_it_is_asked_for(self) -> None:
        words = ("explore", f"{BUGS}/status.c", "--input-file", f"{BUGS}/status.in", "--runs", "3000")
        self.hippo_c(*words, "--", "-DBUG=1", code=0)
        ran = self.hippo_c(*words, "--status", "--", "-DBUG=1", code=1)
        self.assertIn("the next run fails: main returns 1", ran.stdout)
        self.assertRegex(ran.stdout, r"see it again: hippo-c crash .* --status")

    def test_a_state_that_is_refused_without_a_power_cut(self) -> None:
        self.write(
            "a.c",
            "#include <hippo.h>\nPERSISTENT long done;\nint main(void) {\n  if (done) __builtin_trap();\n  long n = read_i64();\n"
            "  if (n == 0) return 0;\n  done = n;\n  pmem_persist(&done, 8);\n  return 0;\n}\n",
        )
        for command, words in (("explore", ("--runs", "200", "--range", "7-7")), ("crash", ())):
            ran = self.hippo_c(command, "a.c", "--input", "7", *words, code=2)
            self.assertIn(
                "although nothing is lost" if command == "crash" else "no image of a power cut was tried", ran.stdout
            )

    def test_more_than_the_engine_holds(self) -> None:
        self.write(
            "prints.c",
            "#include <hippo.h>\nint main(void) {\n  for (long i = read_i64(); i > 0; i--) print_i64(i);\n  return 0;\n}\n",
        )
        self.refused(
            "the run of the given input has more entries, stores or prints than explore holds",
            "explore",
            "prints.c",
            "--input",
            "1050000",
        )
        self.write(
            "lines.c",
            "#include <hippo.h>\n#define COUNT 5000\nPERSISTENT struct { _Alignas(64) long cell; } s[COUNT];\nint main(void) {\n"
            "  for (long i = 0; i < COUNT; i++) s[i].cell = i;\n  pmem_persist(s, sizeof s);\n  return 0;\n}\n",
        )
        ran = self.hippo_c("explore", "lines.c", "--runs", "40000", "--crashes", "1", code=0)
        self.assertIn(
            "1 crash point with more than 4,096 lines, or with more than 512 contents of a line: not all their images were tried",
            ran.stdout,
        )
        self.assertRegex(ran.stdout, r"crashes: about 10\^\d+ images of 2 crash points")

    def test_progress_in_words(self) -> None:
        line = "progress inputs=45120 kept=183 blocks=166 reports=3 points=1160 failures=2 left=68\n"
        text = "exploring: 45,120 inputs, 183 kept, 166 of 1,180 blocks, 3 reports, 2 failures, 1,160 crash points, "
        self.assertEqual(exploring.progress_text(line, 1180, 60), f"{text}41 s left")
        self.assertEqual(exploring.progress_text(line, 1180, 0), f"{text}68 % left")

    def test_what_lower_refuses_is_refused(self) -> None:
        self.write(
            "a.c",
            "#include <pthread.h>\nstatic void *other(void *p) { return p; }\nint main(void) {\n  pthread_t t;\n"
            "  return pthread_create(&t, 0, other, 0);\n}\n",
        )
        self.refused("pthread_create", "explore", "a.c", "--runs", "10")


class FirstAct(BugCase):
    """The trace of a given input is compared with that of hippo."""

    def test_a_defect_of_the_engine_is_named(self) -> None:
        session = self.session("seals")
        with open(session.text_path, encoding="latin-1") as file:
            text = file.read()
        wrong = Engine(Program(text.replace("call void @pmem_drain()", "%other = add i64 0, 0", 1)), self.folder)
        with self.assertRaisesRegex(Trouble, "a defect of explore: the trace of the engine is not that of hippo"):
            exploring.check_engine(session, wrong, [5, 1, 9, 0])


if __name__ == "__main__":
    unittest.main()
