"""The heap of lowered programs: the size of its first part, and the second part on the stack.

Hippo is out/hippo, or the program that HIPPO_PROGRAM names; without it the tests are skipped."""
from __future__ import annotations

import os
import unittest

from clang_case import HIPPO, TESTS
from runtime_case import Setting


@unittest.skipUnless(os.path.exists(HIPPO), "hippo is not built")
class Heap(Setting):
    """What `malloc` and `free` do at the bounds of the heap."""

    def test_a_size(self) -> None:
        program = "#include <stdlib.h>\nint main(void) { int n = 0; while (malloc(1000)) n++; return n; }"
        self.assertEqual(self.end_of(program, "--heap", "64K"), "stop 64")

    def test_second_part_under_many_calls(self) -> None:
        """With a first part that is soon full, the program of the heap prints what it prints over the system's."""
        source = f"{TESTS}/runtime/heap.c"
        expected = self.output_of(source)
        text = self.lowered(source, "-O1", ["--heap", "4K", "--heap-on-stack", "256K"])
        self.assertEqual(self.hippo(text), expected)
        self.assertEqual(self.built(text), expected)

    def test_second_part(self) -> None:
        """It has blocks when the first part is full, takes them back, joins them, and traps at a free of what is no block."""
        program = (
            "#include <stdlib.h>\n#include <string.h>\nenum { SIZE = 1 << 16 };\nstatic char *blocks[40];\nint main(void) {\n"
            "  int n = 0, above = 0; char *volatile large;\n"
            "  for (; n < 40 && (blocks[n] = malloc(SIZE - 16)); n++) {\n"
            "    memset(blocks[n], n + 1, SIZE - 16); above += (unsigned long)blocks[n] >= 268435456ul;\n  }\n"
            "  for (int i = 0; i < n; i++) if (blocks[i][0] != i + 1 || blocks[i][SIZE - 17] != i + 1) return 1;\n"
            "  for (int i = 0; i < n; i += 2) free(blocks[i]);\n  for (int i = 1; i < n; i += 2) free(blocks[i]);\n"
            "  if (!(large = malloc(9 * SIZE)) || !(large = malloc(7 * SIZE)) || (large = malloc(7 * SIZE))) return 2;\n"
            "  return n * 10 + above;\n}"
        )
        self.assertEqual(self.end_of(program, "--heap", "640K", "--heap-on-stack", "512K"), "stop 177")
        self.assertEqual(self.end_of(program, "--heap", "512K", "--heap-on-stack", "640K"), "stop 179")
        for freed in ("p - 32", "p + 16", "p + 8192"):
            program = (
                "#include <stdlib.h>\nint main(void) { char *volatile p; while ((p = malloc(1000)) && (unsigned long)p < 1ul << 28); "
                f"free({freed}); return 3; }}"
            )
            self.assertEqual(self.end_of(program, "--heap", "8K", "--heap-on-stack", "8K"), "trap unreachable", freed)


if __name__ == "__main__":
    unittest.main()
