#!/usr/bin/env python3
"""The judge of random programs: each change of a trace or of the reports is found."""
from __future__ import annotations

import unittest

from random_c.judge import Addresses, Judge
from random_c.layout import Object
from random_c.model import DURABLE, NEITHER, NO_FENCE, NO_FLUSH, Region
from random_c.program import File, Program

TEXT = '@r7_pm0 = global [16 x i64] zeroinitializer, section ".pm", align 64\n'
TRACE = """START;9
REGISTER;0x100000000;0x80
STORE;0x100000000;0x5;0x8
STORE;0x100000008;0x5;0x4
FLUSH;0x100000000;0x40
STORE;0x100000040;0x5;0x1
FENCE
ASSERT;0x100000000;0x80
STORE;0x100000000;0x6;0x8
STOP;0
"""
REPORTS = """report flush entry 6 check 8 closed 0 path @main:entry:3
report both entry 9 check 10 closed 0 path @main:entry:6
report flush entry 6 check 10 closed 0 path @main:entry:3
"""


class Judging(unittest.TestCase):
    """A trace and its reports that are as the model says, and what differs after a change of one place."""

    def found(self, trace: str = TRACE, reports: str = REPORTS) -> list[str]:
        """What the judge finds."""
        region = Region([128])
        region.store(0, 0, 8)
        region.may_store(0, 8, 4)
        region.flush(0, 3)
        region.store(0, 64, 1)
        region.fence()
        region.check(0, 0, 128)
        region.store(0, 0, 8)
        region.end()
        file = File([Program(7, "", "main", [], [Object(0, "r7_pm0", size=128)], set(), [])])
        file.region = region
        found = Judge(file, Addresses(TEXT, file.objects), trace, reports).difference()
        return [] if found is None else [found[1]]

    def test_nothing_differs(self) -> None:
        self.assertEqual(self.found(), [])

    def test_a_store_that_may_be_left_out(self) -> None:
        trace = TRACE.replace("STORE;0x100000008;0x5;0x4\n", "")
        reports = """report flush entry 5 check 7 closed 0 path @main:entry:3
report both entry 8 check 9 closed 0 path @main:entry:6
report flush entry 5 check 9 closed 0 path @main:entry:3
"""
        self.assertEqual(self.found(trace, reports), [])

    def test_one_change_of_the_trace_is_found(self) -> None:
        for old, new in (
            ("FENCE\n", ""),
            ("FLUSH;0x100000000;0x40\n", ""),
            ("FENCE", "FENCE\nFENCE"),
            ("FLUSH;0x100000000", "FLUSH;0x100000040"),
            ("STORE;0x100000040;0x5;0x1\n", ""),
            (";0x5;0x1\n", ";0x5;0x2\n"),
            ("STORE;0x100000000;0x5;0x8", "STORE;0x100000000;0x5;0x4"),
            ("ASSERT;0x100000000;0x80", "ASSERT;0x100000000;0x40"),
            ("STOP;0", "STOP;1"),
            ("STOP;0", "TRAP;stack"),
            ("STOP;0\n", ""),
            ("FENCE\n", "PERSIST;0x100000000;0x40\n"),
            ("STORE;0x100000000;0x6", "STORE;0x100000080;0x6"),
        ):
            with self.subTest(old + new):
                self.assertIn(old, TRACE)
                self.assertEqual(len(self.found(TRACE.replace(old, new, 1))), 1)

    def test_one_change_of_the_reports_is_found(self) -> None:
        lines = REPORTS.splitlines(True)
        for changed in (
            "",
            *(REPORTS.replace(line, "") for line in lines),
            REPORTS.replace("both", "flush"),
            REPORTS.replace("both", "fence"),
            REPORTS + lines[0].replace("entry 6", "entry 3"),
            REPORTS + lines[0].replace("entry 6 check 8", "entry 3 check 10"),
        ):
            with self.subTest(changed):
                self.assertEqual(len(self.found(reports=changed)), 1)

    def found_over_two_lines(self, kinds: list[str], *flushed: int) -> list[str]:
        """What the judge finds for a store over two lines, of which some are flushed, with reports of these kinds at two checks."""
        region = Region([128])
        region.store(0, 60, 8)
        for at in flushed:
            region.flush(0, at)
        region.check(0, 0, 128)
        region.fence()
        region.check(0, 0, 128)
        file = File([Program(7, "", "main", [], [Object(0, "r7_pm0", size=128)], set(), [])])
        file.region = region
        flushes = "".join(f"FLUSH;{0x100000000 + at:#x};0x40\n" for at in flushed)
        trace = f"START;9\nREGISTER;0x100000000;0x80\nSTORE;0x10000003c;0x5;0x8\n{flushes}ASSERT;0x100000000;0x80\nFENCE\nASSERT;0x100000000;0x80\n"
        checks = 4 + len(flushed), 6 + len(flushed)
        reports = "".join(
            f"report {kind} entry 3 check {check} closed 0 path @main:entry:0\n"
            for kind, check in zip(kinds, checks)
            if kind
        )
        found = Judge(file, Addresses(TEXT, file.objects), trace, reports).difference()
        return [] if found is None else [found[1]]

    def test_a_store_over_two_lines_has_the_report_of_its_worst_part(self) -> None:
        for flushed, wanted in (
            ((), (NEITHER, NO_FLUSH)),
            ((0,), (NEITHER, NO_FLUSH)),
            ((64,), (NEITHER, NO_FLUSH)),
            ((0, 64), (NO_FENCE, DURABLE)),
        ):
            for first in (DURABLE, NO_FLUSH, NO_FENCE, NEITHER):
                for second in (DURABLE, NO_FLUSH, NO_FENCE, NEITHER):
                    found = self.found_over_two_lines([first, second], *flushed)
                    self.assertEqual(found == [], (first, second) == wanted, (flushed, first, second, found))

    def test_an_object_that_begins_no_line_is_refused(self) -> None:
        with self.assertRaises(AssertionError):
            Addresses(TEXT.replace("align 64", "align 32"), [Object(0, "r7_pm0", size=128)])


if __name__ == "__main__":
    unittest.main()
