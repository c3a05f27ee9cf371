#!/usr/bin/env python3
"""Stores of vectors: those of 16 bytes are two of 8 in the trace, so a crash image has each word of one whole or not at all."""
from __future__ import annotations

import os
import subprocess
import unittest

from clang_case import HIPPO, TOOLS, ClangCase

PROGRAM = """#include <emmintrin.h>
#include <hippo.h>
PERSISTENT static unsigned char kept[128] __attribute__((aligned(64)));
static void put_bytes(__m128i value) { _mm_store_si128((__m128i *)kept, value); }
static void put_anywhere(__m128i value) { _mm_storeu_si128((__m128i *)(kept + 16), value); }
static void put_floats(__m128 value) { _mm_store_ps((float *)(kept + 32), value); }
static void put_doubles(__m128d value) { _mm_store_pd((double *)(kept + 48), value); }
static void put_half(__m128i value) { _mm_storel_epi64((__m128i *)(kept + 64), value); }
static void put_word(__m128i value) { *(int *)(kept + 72) = _mm_cvtsi128_si32(value); }
int main(void) {
  __m128i value = _mm_add_epi8(_mm_set1_epi8((char)read_i64()), _mm_setr_epi8(1, 2, 3, 4, 5, 6, 7, 8, 9, 10, 11, 12, 13, 14, 15, 16));
  put_bytes(value);
  put_anywhere(value);
  put_floats(_mm_castsi128_ps(value));
  put_doubles(_mm_castsi128_pd(value));
  put_half(value);
  put_word(value);
  return 0;
}
"""
# The distance from the first address, and the size.
STORES = [*((8 * number, 8) for number in range(9)), (72, 4)]


@unittest.skipUnless(os.access(HIPPO, os.X_OK), "hippo is not built")
class VectorStores(ClangCase):
    """One program, as C and as C++, at each level."""

    def stores(self, name: str, level: str) -> list[tuple[int, int]]:
        """The stores in the trace of a file."""
        text = os.path.join(self.folder, f"{name}{level}.ll")
        lower = [os.path.join(TOOLS, "lower"), level, "-o", text, os.path.join(self.folder, name), "--", "-w"]
        done = subprocess.run(lower, capture_output=True, encoding="utf-8", check=False)
        self.assertEqual(done.returncode, 0, done.stderr)
        done = subprocess.run([HIPPO, "record", text, "3"], capture_output=True, encoding="utf-8", check=False)
        self.assertEqual(done.stderr, "stop 0\n")
        words = [line.split(";") for line in done.stdout.splitlines() if line.startswith("STORE;")]
        return [(int(address, 16) - int(words[0][1], 16), int(size, 16)) for _, address, _, size in words]

    def test_no_store_is_torn_finer_than_a_processor_does(self) -> None:
        """Each level writes the same words, in their order."""
        for name in ("vectors.c", "vectors.cpp"):
            with open(os.path.join(self.folder, name), "w", encoding="utf-8") as file:
                file.write(PROGRAM)
            for level in ("-O0", "-O1", "-O2", "-O3"):
                with self.subTest(name=name, level=level):
                    self.assertEqual(sorted(self.stores(name, level)), STORES)


if __name__ == "__main__":
    unittest.main()
