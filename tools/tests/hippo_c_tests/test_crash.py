"""The command crash: the images that are tried, what fails, and the way to see it again."""
import os
import random
import re

from .common import EXAMPLES, RING_INPUT, Case

from hippo_c import images
from hippo_c.images import CacheLines, Choice, Point, strides
from hippo_c.running import hippo_program

LAST = 1 << 62


def durable_of(lines: CacheLines) -> dict[int, int]:
    """The number of durable stores of each line that has stores."""
    return {number: line.durable for number, line in lines.lines.items()}


class Images(Case):
    """The enumeration of images, with hippo as its measure."""

    def points(self, choice: Choice, spread: bool = False) -> list[Point]:
        """The points of the trace in their order."""
        return [point for of_entry in images.points_of(self.path("a.trace"), choice, spread) for point in of_entry]

    def test_hippo_takes_every_pick_and_no_larger_one(self) -> None:
        text = f"{EXAMPLES}/undo_log/account.ll"
        self.write("a.trace", self.hippo("record", text, "30").stdout)
        points = self.points(Choice(4, LAST, 7, 3))
        self.assertGreater(len(points), 5)
        for point in points:
            picks = [f"{line}:{upto}" for line, upto in point.picks]
            ran = self.hippo("crash", text, self.path("a.trace"), str(point.entry), *picks)
            self.assertEqual(ran.returncode, 0, (point, ran.stderr))
        for point in points:
            if point.picks:
                line, upto = point.picks[-1]
                lines = CacheLines()
                for number, entry in enumerate(self.read("a.trace").rstrip("\n").split("\n")[: point.entry], 1):
                    lines.take(number, entry)
                above = len(lines.lines[line].stores) + 1
                ran = self.hippo("crash", text, self.path("a.trace"), str(point.entry), f"{line}:{above}")
                self.assertIn("range", ran.stderr)

    def test_images_are_tried_once(self) -> None:
        text = f"{EXAMPLES}/undo_log/account.ll"
        self.write("a.trace", self.hippo("record", text, "30").stdout)
        points = self.points(Choice(1, LAST, 1, 5))
        self.assertEqual(len({point.key for point in points}), len(points))

    def test_lines_of_a_store_over_two(self) -> None:
        lines = CacheLines()
        lines.take(1, "STORE;0x10000003c;0x1;0x8")
        self.assertEqual(sorted(lines.pending), [0, 1])
        lines.take(2, "FLUSH;0x100000040;0x40")
        lines.take(3, "FENCE")
        self.assertEqual((durable_of(lines), sorted(lines.pending)), ({0: 0, 1: 1}, [0]))
        found = [point.picks for point in lines.points(3, random.Random(1), range(lines.choices(0)))]
        self.assertEqual(found, [(), ((0, 1),), ((0, 1),), ()])

    def test_a_line_is_kept_or_lost_alone(self) -> None:
        lines = CacheLines()
        for number, entry in enumerate(
            (
                "STORE;0x100000000;0x1;0x8",
                "STORE;0x100000040;0x1;0x8",
                "FLUSH;0x100000000;0x40",
                "FENCE",
                "STORE;0x100000000;0x2;0x8",
                "STORE;0x100000080;0x1;0x8",
            ),
            1,
        ):
            lines.take(number, entry)
        found = [point.picks for point in lines.points(6, random.Random(1), range(lines.choices(0)))]
        self.assertEqual(
            found,
            [
                (),
                ((0, 2), (1, 1), (2, 1)),
                ((0, 2),),
                ((1, 1),),
                ((2, 1),),
                ((1, 1), (2, 1)),
                ((0, 2), (2, 1)),
                ((0, 2), (1, 1)),
            ],
        )

    def test_the_same_image_has_the_same_key(self) -> None:
        """The key is that of the lines' contents, whichever of their stores are durable already."""
        lines = CacheLines()
        lines.take(1, "STORE;0x100000000;0x1;0x8")
        lines.take(2, "STORE;0x100000040;0x1;0x8")
        every: tuple[dict[int, int], ...] = ({}, {0: 1}, {0: 1, 1: 1})
        before = [lines.key(picks) for picks in every]
        lines.take(3, "FLUSH;0x100000000;0x40")
        lines.take(4, "FENCE")
        self.assertEqual([lines.key({}), lines.key({1: 1})], before[1:])
        self.assertEqual(len(set(before)), 3)

    def test_a_sample_of_all_images(self) -> None:
        text = f"{EXAMPLES}/undo_log/account.ll"
        self.write("a.trace", self.hippo("record", text, "30").stdout)
        every = {(point.entry, point.picks) for point in self.points(Choice(1, LAST, 1, 0))}
        some = [(point.entry, point.picks) for point in self.points(Choice(1, LAST, 1, 0, 6))]
        self.assertTrue(0 < len(some) <= 6 < len(every), (some, every))
        all_keys = {point.key for point in self.points(Choice(1, LAST, 1, 0))}
        self.assertEqual({point.key for point in self.points(Choice(1, LAST, 1, 0, 10**6))}, all_keys)

    def test_spread_entries_reach_each_once(self) -> None:
        for entries in (1, 2, 63, 64, 65, 130, 1000):
            found = [
                place
                for step, among in strides(entries)
                for place in range(entries)
                if place % step == 0 and not (among and place % among == 0)
            ]
            self.assertEqual(sorted(found), list(range(entries)))
            first = found[:64]
            self.assertGreaterEqual(max(first), entries - max(entries // 32, 1) - 1)
        one = "STORE;{0:#x};0x1;0x8\nFLUSH;{0:#x};0x40\nFENCE\n"
        self.write(
            "a.trace",
            "START;1000\n" + "".join(one.format(0x100000000 + 64 * number) for number in range(100)) + "STOP;0\n",
        )
        whole, spread = self.points(Choice(2, 301, 1, 0)), self.points(Choice(2, 301, 1, 0), True)
        self.assertEqual({point.key for point in whole}, {point.key for point in spread})
        self.assertEqual(len({point.key for point in spread}), len(spread))
        order = list(dict.fromkeys(point.entry for point in spread))
        self.assertLess(order[0], 10)
        self.assertGreater(max(order[:40]), 280)

    def test_a_flush_of_several_lines(self) -> None:
        lines = CacheLines()
        for number, entry in enumerate(
            ("STORE;0x100000000;0x1;0x8", "STORE;0x100000080;0x1;0x8", "FLUSH;0x100000000;0xc0", "FENCE"), 1
        ):
            lines.take(number, entry)
        self.assertEqual((durable_of(lines), sorted(lines.pending)), ({0: 1, 2: 1}, []))


class Crash(Case):
    """Programs that fail after a power cut."""

    def test_the_ring_loses_a_message(self) -> None:
        self.take("ring_buffer", "ring.c")
        ran = self.hippo_c("crash", "ring.c", "--input", "3", "0", code=1)
        first = ran.stdout.split("\n")
        self.assertRegex(first[0], r"^ring\.c:50:11: error: after a power cut here the next run fails: __builtin_trap")
        self.assertIn(
            "ring.c:72:7: note: the run from that image ends here\nring.c:80:3: note: 'recover' is called here, by 'main'\n",
            ran.stdout,
        )
        self.assertRegex(ran.stdout, r"ring\.c:47:3: note: this store to 'ring\.slots\[2\]\.text\[48\]' is lost")
        again = self.group_in(r"see it again: hippo-c ([^\n]*)", ran.stdout).split(" ")
        self.assertIn("1 crash image after 1 entry tried; 1 run failed", self.hippo_c(*again, code=1).stdout)

    def test_the_repaired_ring_loses_nothing(self) -> None:
        self.take("ring_buffer", "ring.c")
        self.hippo_c("repair", "ring.c", "-o", "ring.ll", *RING_INPUT, code=0)
        ran = self.hippo_c("crash", "ring.ll", "--input", "3", "-2", "0", code=0)
        self.assertRegex(ran.stdout, r"^all [\d,]+ images of \d+ crash points: \d+ behaviours; 0 fail, by 0 causes\n$")
        ran = self.hippo_c("crash", "ring.ll", "--input", "3", "-2", "0", "--sample", "2", code=0)
        self.assertRegex(ran.stdout, r"^\d+ crash images after \d+ entries tried; 0 runs failed\n$")

    def test_a_status_counts_where_it_is_asked_for(self) -> None:
        self.write(
            "a.c",
            "#include <hippo.h>\nPERSISTENT struct { _Alignas(64) long a; _Alignas(64) long b; } p;\n"
            "int main(void) {\n  if (p.a != p.b) return 1;\n  p.a = 1;\n  p.b = 1;\n  return 0;\n}\n",
        )
        self.hippo_c("crash", "a.c", code=0)
        ran = self.hippo_c("crash", "a.c", "--status", code=1)
        self.assertIn("main returns 1", ran.stdout)
        one = ("crash", "a.c", "--entries", "4", "--pick", "0:1")
        self.hippo_c(*one, code=0)
        self.hippo_c(*one, "--status", code=1)

    def test_a_run_that_reads_past_its_input_does_not_fail(self) -> None:
        self.write(
            "a.c",
            "#include <hippo.h>\nPERSISTENT long started;\nint main(void) {\n  read_i64();\n  if (started) read_i64();\n  started = 1;\n"
            "  pmem_persist(&started, 8);\n  return 0;\n}\n",
        )
        for words in ((), ("--sample", "2"), ("--entries", "4", "--pick", "0:1")):
            self.hippo_c("crash", "a.c", "--input", "4", *words, code=0)
        ran = self.hippo_c("crash", "a.c", "--input", "4", "--entries", "4", "--pick", "0:1", "--then", "5", code=0)
        self.assertIn("after 2 power cuts the next run reads past its input", ran.stdout)

    def test_bounds_of_what_is_tried(self) -> None:
        self.take("ring_buffer", "ring.c")
        self.refused(
            "--time 1e-06: the time ended before an image was tried",
            "crash",
            "ring.c",
            "--time",
            "0.000001",
            "--sample",
            "2",
            *RING_INPUT,
        )
        one = self.hippo_c("crash", "ring.c", "--entries", "9-12", "--sample", "0", "--jobs", "1", *RING_INPUT)
        self.assertIn("after 4 entries tried", one.stdout)
        self.assertIn(
            "range", self.hippo_c("crash", "ring.c", "--entries", "9", "--pick", "0:999", *RING_INPUT, code=2).stderr
        )

    def test_a_limited_search_is_spread_over_the_run(self) -> None:
        """What fails in the last third of a long run is found by few runs, and the answer says how much was tried."""
        self.write(
            "a.c",
            "#include <hippo.h>\nPERSISTENT struct { _Alignas(64) long a; _Alignas(64) long b; } p;\nint main(void) {\n"
            "  if (p.a < p.b) __builtin_trap();\n  for (long i = 0; i < 900; i++) {\n    p.a = i;\n"
            "    if (i < 600) _mm_clwb(&p.a);\n    _mm_sfence();\n    p.b = i;\n    _mm_clwb(&p.b);\n    _mm_sfence();\n  }\n  return 0;\n}\n",
        )
        ran = self.hippo_c("crash", "a.c", "--crashes", "1", "--runs", "200", code=1)
        self.assertIn("a.c:", ran.stdout)
        self.assertRegex(
            ran.stdout,
            r"[\d,]+ images of [\d,]+ of 1,501 crash points: [\d,]+ behaviours, [\d,]+ of the points or recoveries not tried whole;",
        )
        ran = self.hippo_c("crash", "a.c", "--crashes", "1", "--runs", "1", code=2)
        self.assertEqual(ran.stdout, "no image was tried: the time ended before; raise --time\n")

    def test_the_entries_that_were_tried_are_counted(self) -> None:
        self.take("ring_buffer", "ring.c")
        self.write("hippo", f'#!/bin/sh\nif [ "$1" = crash ]; then sleep 0.2; fi\nexec {hippo_program()} "$@"\n')
        os.chmod(self.path("hippo"), 0o755)
        environment = {**os.environ, "HIPPO_PROGRAM": self.path("hippo")}
        ran = self.hippo_c(
            "crash", "ring.c", "--sample", "0", "--time", "1", "--jobs", "1", *RING_INPUT, code=0, env=environment
        )
        found = re.fullmatch(
            r"[\d,]+ crash images? after ([\d,]+) of ([\d,]+) entries tried \(the time ran out before all were tried\); "
            r"0 runs failed\n",
            ran.stdout,
        )
        if found is None:
            self.fail(ran.stdout)
        self.assertEqual(found[2], str(len(self.trace_of("ring.c"))))
        self.assertLess(int(found[1]), int(found[2]))

    def trace_of(self, file: str) -> list[str]:
        """The entries of the trace of a program."""
        self.hippo_c("check", file, "--keep", "kept", "--no-coverage", *RING_INPUT)
        return self.read("kept/program.trace").splitlines()

    def test_bad_words_are_refused(self) -> None:
        self.take("ring_buffer", "ring.c")
        for words, text in (
            (("--entries", "9", "--pick", "x"), "--pick x: not LINE:UPTO"),
            (("--pick", "0:1"), "--pick needs one entry"),
            (("--entries", "x"), "--entries x: neither a number nor A-B"),
            (("--entries", ""), "neither a number nor A-B"),
            (("--entries", "5-3"), "--entries 5-3: the first entry is above the last"),
            (("--entries", "0"), "--entries 0: the trace has entries 1 to "),
            (("--entries", "9000-9001"), "--entries 9000-9001: the trace has entries 1 to "),
            (("--jobs", "0"), "'0' is not a number from 1"),
            (("--sample", "-1"), "'-1' is not a number from 0"),
            (("--time", "0"), "'0' is not a number of seconds"),
            (("--time", "nan"), "'nan' is not a number of seconds"),
            (("--inputs", "two"), "unrecognized arguments"),
        ):
            self.refused(text, "crash", "ring.c", *words, *RING_INPUT)

    def test_a_failure_while_an_image_is_made_smaller_is_not_ignored(self) -> None:
        self.take("ring_buffer", "ring.c")
        self.write(
            "hippo",
            '#!/bin/sh\nif [ "$1" = crash ] && [ "$#" -lt 6 ]; then exit 7; fi\nif [ "$1" = crash ]; then echo "trap unreachable" >&2; '
            f'exit 9; fi\nunset HIPPO_PROGRAM\nexec {hippo_program()} "$@"\n',
        )
        os.chmod(self.path("hippo"), 0o755)
        environment = {**os.environ, "HIPPO_PROGRAM": self.path("hippo")}
        words = ("crash", "ring.c", "--input", "3", "0", "--entries", "47", "--pick", "0:1", "1:1")
        self.refused("crash of ring.c: hippo crash answered 7", *words, env=environment)
