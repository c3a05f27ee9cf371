"""Acknowledged operations: which print a power cut takes back, in explore and in crash, and that hippo judges it."""
import json
import re
import unittest

from .common import Case
from .explore_case import BUGS

from hippo_c import running
from hippo_c.engine_lines import Reader
from hippo_c.findings import Failure
from hippo_c.judging import Judge
from hippo_c.native import Engine
from hippo_c.operations import cuts_of
from hippo_c.progress import Progress
from hippo_c.ran import ran
from hippo_c.request import Request
from hippo_c.session import Session

LOST = f"{BUGS}/lost_acknowledgement"
# Only the last sum is durable before it is printed. With OTHER the recovery fails for a reason that no print gives.
LAST = """#include <hippo.h>
PERSISTENT struct { _Alignas(64) long sum; } s;
int main(void) {
  if (OTHER ? s.sum == 0 && hippo_prints() : s.sum < hippo_prints()) __builtin_trap();
  if (OTHER && s.sum == 1) __builtin_trap();
  hippo_recovered();
  for (long left = read_i64(); left > 0; left--) {
    s.sum++;
    if (left == 1) pmem_persist(&s.sum, 8);
    print_i64(s.sum);
  }
  return 0;
}
"""
# An operation prints before it is durable.
EARLY = """#include <hippo.h>
PERSISTENT struct { _Alignas(64) long sum; } s;
int main(void) {
  for (long n;;) {
    hippo_op();
    if ((n = read_i64()) == 0) return 0;
    if (n < 9) s.sum += n;
    print_i64(s.sum);
    pmem_persist(&s.sum, 8);
  }
}
"""


class Operations(Case):
    """Operations that a power cut takes back after they were acknowledged."""

    def test_explore_and_crash_name_the_print(self) -> None:
        words = (f"{LOST}.c", "--input-file", f"{LOST}.in", "--runs", "1500")
        for command in (("explore", *words, "--json", "a.json", "--html", "a.html"), ("crash", *words)):
            ran = self.hippo_c(*command, "--", "-DBUG=1", "-DVALID", code=1)
            self.assertRegex(
                ran.stdout,
                r"lost_acknowledgement\.c:10:\d+: error: after a power cut here an acknowledged operation is lost: "
                r"print 1 \(\S*lost_acknowledgement\.c:12\)\n",
            )
            again = self.group_in(r"see it again: hippo-c ([^\n]*)", ran.stdout).split(" ")
            self.assertEqual(again[again.index("--prints") + 1], "1")
            self.assertIn("after power cut the next run fails", self.hippo_c(*again, code=1).stdout)
        failure = json.loads(self.read("a.json"))["failures"][0]
        self.assertEqual((failure["lost_print"]["number"], failure["lost_print"]["place"]["line"]), (1, 12))
        self.assertIn("an acknowledged operation is lost: print 1", self.read("a.html"))

    def test_a_twin_loses_nothing(self) -> None:
        words = ("crash", f"{LOST}.c", "--input-file", f"{LOST}.in", "--runs", "1500", "--", "-DBUG=0", "-DVALID")
        self.assertRegex(self.hippo_c(*words, code=0).stdout, r"^all \d+ images of \d+ crash points: .*; 0 fail")

    def test_crash_shows_marked_operations(self) -> None:
        self.write("early.c", EARLY)
        ran = self.hippo_c("crash", "early.c", "--input", "3", "9", "4", "9", "0", "--runs", "4000", code=1)
        self.assertRegex(
            ran.stdout, r"error: after a power cut here an acknowledged operation is lost: print \d \(early\.c:8\)\n"
        )
        self.assertRegex(ran.stdout, r"\d+ operations? lost or half done after a power cut\n")

    def test_crash_looks_for_operations(self) -> None:
        words = ("crash", f"{BUGS}/stale_pointer.c", "--input-file", f"{BUGS}/stale_pointer.in", "--runs", "4000")
        ran = self.hippo_c(*words, "--atomic", "--", "-DBUG=1", code=1)
        self.assertRegex(ran.stdout, r"error: after a power cut here operation \d is neither done nor not done\n")
        self.hippo_c(*words, "--", "-DBUG=1", code=0)
        self.refused("--atomic needs a run that ends", *words, "--atomic", "--sample", "1", "--", "-DBUG=1")


class Judged(Case):
    """What hippo says of the prints of a run."""

    def found(self, other: int) -> tuple[Session, Failure, str]:
        """The failure of a program, and the line of the engine that has it."""
        self.write("last.c", LAST)
        request = Request([self.path("last.c")], [f"-DOTHER={other}"], inputs=[[5]], folder=self.folder)
        session = Session(request, Progress(shown=False))
        engine = Engine(session.program, self.folder)
        said = self.command(*engine.words("replay", [5], "--runs", "10000", "--crashes", "1")).stdout.splitlines()
        line = next(line for line in said if line.startswith("failure "))
        return session, self.read_line(session, line), line

    def read_line(self, session: Session, line: str) -> Failure:
        """The failure of a line of the engine."""
        reader = Reader([site for site, _ in session.program.sites()])
        reader.take(line)
        return next(iter(reader.found.failures.values()))

    def test_when_numbers_are_printed(self) -> None:
        session, _, _ = self.found(0)
        prints = ran(session.program, 64, [3], 99)  # two stores, then a store and a persist, with a print after each
        self.assertEqual([before for before, _ in prints.prints], [1, 2, 4])
        every = [list(prints.printed_at(entries)) for entries in range(5)]
        self.assertEqual(every, [[0], [0, 1], [1, 2], [2], [2, 3]])
        self.assertEqual(len(ran(session.program, 64, [3], 1).entries), 2)

    def test_the_first_lost_print_is_named(self) -> None:
        session, failure, line = self.found(0)
        judge = Judge(session, False)
        lost = judge.lost_print(failure)
        self.assertEqual(lost and lost[0], 1)
        later = self.read_line(session, re.sub(r"cuts=\S+", "cuts=4", re.sub(r"told=\d+", "told=4", line)))
        self.assertTrue(judge.fails(judge.follow(later, later.limit), later.limit))
        self.assertEqual(judge.lost_print(later), lost)

    def test_another_reason_is_no_lost_print(self) -> None:
        session, failure, line = self.found(1)
        judge = Judge(session, False)
        one = self.read_line(session, re.sub(r"cuts=\S+", "cuts=2,0/1", re.sub(r"told=\d+", "told=2", line)))
        self.assertTrue(judge.fails(judge.follow(one, one.limit), one.limit))
        self.assertIsNone(judge.lost_print(one))
        self.assertEqual(failure.level, 1)

    def test_a_run_of_few_turns_is_not_endless(self) -> None:
        session, failure, _ = self.found(0)
        judge = Judge(session, False)
        followed = judge.follow(failure, failure.limit)
        self.assertTrue(judge.fails(followed, failure.limit))
        followed.following.ended = running.Ended(running.CUT, "cut\n")
        self.assertTrue(judge.fails(followed, failure.limit))
        self.assertFalse(judge.fails(followed, 4_000_000))

    def test_another_number_of_prints_is_refused(self) -> None:
        session, failure, line = self.found(0)
        judge = Judge(session, False)
        self.assertTrue(judge.follow(failure, failure.limit).is_whole)
        for told in (0, 3):
            wrong = self.read_line(session, re.sub(r"cuts=\S+", "cuts=2", re.sub(r"told=\d+", f"told={told}", line)))
            self.assertFalse(judge.follow(wrong, wrong.limit).is_whole, told)


class Inputs(unittest.TestCase):
    """Inputs without an operation."""

    def test_pieces_without_which_an_input_is_another(self) -> None:
        given = [3, 10, 20, 30]
        for shorter, less, most, wanted in (
            ([2, 20, 30], 1, 9, [(1, 2)]),
            ([1, 30], 2, 9, [(1, 3)]),
            ([3, 20, 30], 1, 9, [(1, 2)]),
            ([3, 10, 20], 1, 9, [(3, 4)]),
            ([1, 20, 30], 1, 9, []),
            ([2, 20, 30], 1, 2, []),
            ([4, 20, 30], 1, 9, []),
            ([2, 9, 30], 1, 9, []),
            ([3, 10, 20, 30, 40], 1, 9, []),
        ):
            self.assertEqual(list(cuts_of(given, shorter, less, most)), wanted, shorter)


if __name__ == "__main__":
    unittest.main()
