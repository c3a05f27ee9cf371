#!/usr/bin/env python3
"""Each C program in `lowering/` prints, lowered at each level, what clang's own build of it prints (`comparing.py`)."""
import glob
import os
import unittest

from clang_case import HIPPO, TESTS, TOOLS
from comparing import Comparing, output_of

ENDS = """#include <hippo.h>
#include <stdlib.h>
PERSISTENT static long long number;
PERSISTENT static _Alignas(64) long long flushed;
static void last(void) { pmem_persist(&flushed, sizeof flushed); }
static void stop(int code) { number = code; exit(code); }
int main(void) { flushed = 3; atexit(last); stop(2); return 0; }
"""

WIDE = """#include <hippo.h>
#include <emmintrin.h>
PERSISTENT static __m128i wide;
int main(void) {
  __m128i bytes = _mm_set1_epi8((char)read_i64());
  _mm_store_si128(&wide, _mm_add_epi8(bytes, _mm_set1_epi8((char)read_i64())));
  return 0;
}
"""


class Lowered(Comparing):
    """One test for each program and level."""

    def test_exit_below_main(self) -> None:
        """`exit` below main runs what atexit was given, and ends the run by a return of main, which checks the region."""
        if not os.access(HIPPO, os.X_OK):
            self.skipTest("hippo is not built")
        source, lowered = (os.path.join(self.folder, f"ends.{end}") for end in ("c", "ll"))
        with open(source, "w", encoding="utf-8") as file:
            file.write(ENDS)
        code, text, errors = output_of([os.path.join(TOOLS, "lower"), source])
        self.assertEqual(code, 0, errors)
        with open(lowered, "w", encoding="latin-1") as file:
            file.write(text)
        code, trace, errors = output_of([HIPPO, "record", lowered])
        self.assertEqual((code, errors), (0, "stop 2\n"))
        self.assertEqual([entry.split(";")[0] for entry in trace.split()[2:]], ["STORE", "STORE", "PERSIST", "STOP"])

    def test_a_vector_is_stored_in_words(self) -> None:
        """A store of 16 bytes is two of 8 in the trace, at each level, so a crash image has each of its words whole or not at all."""
        if not os.access(HIPPO, os.X_OK):
            self.skipTest("hippo is not built")
        source, lowered = (os.path.join(self.folder, f"wide.{end}") for end in ("c", "ll"))
        with open(source, "w", encoding="utf-8") as file:
            file.write(WIDE)
        for level in ("-O0", "-O2"):
            code, text, errors = output_of([os.path.join(TOOLS, "lower"), level, source])
            self.assertEqual(code, 0, errors)
            with open(lowered, "w", encoding="latin-1") as file:
                file.write(text)
            code, trace, errors = output_of([HIPPO, "record", lowered, "1", "2"])
            self.assertEqual(code, 0, errors)
            self.assertEqual(
                [entry.split(";")[3] for entry in trace.split() if entry.startswith("STORE")], ["0x8", "0x8"]
            )


def add_tests() -> None:
    """A test for each program."""
    for file in sorted(glob.glob(os.path.join(TESTS, "lowering", "*.c"))):
        name = os.path.splitext(os.path.basename(file))[0]
        setattr(Lowered, f"test_{name}", lambda self, file=file: self.compare(file))


add_tests()
if __name__ == "__main__":
    unittest.main()
