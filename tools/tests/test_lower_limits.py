#!/usr/bin/env python3
"""Texts on which a tool of LLVM, or tools/lower, would need long: a limit of time, places in a circle, long chains of inlined calls."""
from __future__ import annotations

import os
import re
import subprocess
import sys
import unittest

from clang_case import TOOLS, ClangCase

LOWER = os.path.join(TOOLS, "lower")
GUARD = 600


class Limits(ClangCase):
    """Texts on which a tool of LLVM, or this one, would need long."""

    def test_each_program_has_a_limit(self) -> None:
        """A program that does not end is ended, and named."""
        script = (
            "import sys; sys.path.insert(0, sys.argv[1]); from lowering import commands\n"
            "assert commands.SECONDS == 600\n"
            'try: commands.output_of(["sleep", "1000"], seconds=0.1)\n'
            "except commands.Failure as failure: print(failure, failure.code, len(commands.WORK.running))"
        )
        done = subprocess.run(
            [sys.executable, "-B", "-c", script, TOOLS],
            capture_output=True,
            encoding="utf-8",
            check=False,
            timeout=GUARD,
        )
        self.assertEqual(done.stdout, "sleep did not end within 0.1 seconds 5 0\n", done.stderr)

    def test_no_program_is_started_otherwise(self) -> None:
        """Only one place starts programs, so each has the limit and ends at a signal."""
        for folder, _, names in os.walk(os.path.join(TOOLS, "lowering")):
            for name in names:
                if name.endswith(".py") and name != "ends.py":
                    with open(os.path.join(folder, name), encoding="utf-8") as text:
                        self.assertNotRegex(
                            text.read(), r"subprocess\.(run|Popen|call|check)|os\.(system|popen|spawn|exec)", name
                        )

    def lowered(self, text: str) -> subprocess.CompletedProcess[str]:
        """What lower makes of a text with places."""
        path = os.path.join(self.folder, "placed.ll")
        with open(path, "w", encoding="utf-8") as out:
            out.write(text)
        return subprocess.run(
            [LOWER, "--lines", path], capture_output=True, encoding="utf-8", check=False, timeout=GUARD
        )

    def test_circles(self) -> None:
        """Places that are within themselves are refused; LLVM's tools would not end on them."""
        for nodes in (
            "!5 = distinct !DILocation(line: 3, column: 1, scope: !4, inlinedAt: !6)\n"
            "!6 = distinct !DILocation(line: 4, column: 1, scope: !4, inlinedAt: !5)",
            "!5 = !DILocation(line: 3, column: 1, scope: !6)\n"
            "!6 = distinct !DILexicalBlock(scope: !7, file: !1, line: 3)\n"
            "!7 = distinct !DILexicalBlock(scope: !6, file: !1, line: 3)",
        ):
            done = self.lowered(placed("!5", nodes))
            self.assertEqual((done.returncode, done.stdout), (5, ""), done.stderr)
            self.assertIn("placed.ll: the places of instructions lead in a circle", done.stderr)

    def test_a_chain_of_inlined_calls(self) -> None:
        """The comments after 2,000 instructions in a chain of as many calls have 64 places at most: the first ones and the last."""
        count = 2000
        nodes = [
            f"!{number} = distinct !DILocation(line: {number}, column: 1, scope: !4, inlinedAt: !{number + 1})"
            for number in range(5, 5 + count)
        ]
        nodes.append(f"!{5 + count} = distinct !DILocation(line: 1, column: 1, scope: !4)")
        done = self.lowered(placed([f"!{number}" for number in range(5, 5 + count)], "\n".join(nodes)))
        self.assertEqual(done.returncode, 0, done.stderr)
        comments = re.findall(r"^  store .* ; (.*)$", done.stdout, re.M)
        self.assertEqual(len(comments), count)
        self.assertEqual({len(comment.split(" < ")) for comment in comments[:-64]}, {64})
        self.assertTrue(comments[0].startswith("a.c:5:1 in main < a.c:6:1 in main < "), comments[0][:99])
        self.assertTrue(comments[0].endswith(" in main < a.c:1:1"))


def placed(places: str | list[str], nodes: str) -> str:
    """A text in LLVM's form with a store at each of the places."""
    stores = "".join(
        f"  store i64 1, ptr @x, !dbg {place}\n" for place in ([places] if isinstance(places, str) else places)
    )
    return f"""target datalayout = "e-m:e-p270:32:32-p271:32:32-p272:64:64-i64:64-i128:128-f80:128-n8:16:32:64-S128"
target triple = "x86_64-pc-linux-gnu"
@x = global i64 0, section ".pm"
define i32 @main() !dbg !4 {{
{stores}  ret i32 0
}}
!llvm.dbg.cu = !{{!0}}
!llvm.module.flags = !{{!2}}
!0 = distinct !DICompileUnit(language: DW_LANG_C11, file: !1, emissionKind: LineTablesOnly)
!1 = !DIFile(filename: "a.c", directory: "")
!2 = !{{i32 2, !"Debug Info Version", i32 3}}
!3 = !DISubroutineType(types: !{{}})
!4 = distinct !DISubprogram(name: "main", scope: !1, file: !1, line: 1, type: !3, unit: !0)
{nodes}
"""


if __name__ == "__main__":
    unittest.main()
