"""What each copy and each fill of libpmem flushes and fences, for each of its flags, by a native build of the runtime's file."""
from __future__ import annotations

import os
import subprocess
import unittest

from clang_case import TOOLS, ClangCase

# Flushes and fences only write to a log here.
SOURCE = """#include <stdio.h>
#include <string.h>
#include <stddef.h>
static char to[256], from[256];
void pmem_flush(const void *p, size_t n) { printf("flush %ld+%zu ", (long)((char *)p - to), n); }
void pmem_drain(void) { printf("fence "); }
void pmem_persist(const void *p, size_t n) { printf("persist %ld+%zu ", (long)((char *)p - to), n); }
void *pmem_memcpy(void *, const void *, size_t, unsigned), *pmem_memmove(void *, const void *, size_t, unsigned), *pmem_memset(void *, int, size_t, unsigned);
void *pmem_memcpy_nodrain(void *, const void *, size_t), *pmem_memmove_nodrain(void *, const void *, size_t), *pmem_memset_nodrain(void *, int, size_t);
void *pmem_memcpy_persist(void *, const void *, size_t), *pmem_memmove_persist(void *, const void *, size_t), *pmem_memset_persist(void *, int, size_t);
static void end(const void *result) { puts(result == to + 3 && to[3] == 7 && to[102] == 7 && !to[103] ? "" : "wrong"), memset(to, 0, sizeof to); }
int main(void) {
  memset(from, 7, sizeof from);
  const unsigned flags[] = {0, 1, 32, 33, 2, 4, 8, 16};
  for (int i = 0; i < 8; i++) {
    end(pmem_memcpy(to + 3, from, 100, flags[i]));
    end(pmem_memmove(to + 3, from, 100, flags[i]));
    end(pmem_memset(to + 3, 7, 100, flags[i]));
  }
  end(pmem_memcpy_nodrain(to + 3, from, 100)), end(pmem_memmove_nodrain(to + 3, from, 100)), end(pmem_memset_nodrain(to + 3, 7, 100));
  end(pmem_memcpy_persist(to + 3, from, 100)), end(pmem_memmove_persist(to + 3, from, 100)), end(pmem_memset_persist(to + 3, 7, 100));
  return 0;
}
"""
BOTH, FLUSH, NOTHING = "flush 3+100 fence", "flush 3+100", ""
# In the order of the program: three calls for each flag (0, no drain, no flush, both, and four that only advise), then those without flags.
WANTED = [line for line in (BOTH, FLUSH, NOTHING, NOTHING, BOTH, BOTH, BOTH, BOTH, FLUSH, BOTH) for _ in range(3)]


class Flags(ClangCase):
    """The log of all calls."""

    def test_what_is_flushed_and_fenced(self) -> None:
        source, program = (os.path.join(self.folder, name) for name in ("log.c", "log"))
        with open(source, "w", encoding="ascii") as file:
            file.write(SOURCE)
        # What the copies do not call is left out, and so is what it would need.
        left_out = ["-ffunction-sections", "-Wl,--gc-sections"]
        subprocess.run(
            [
                "clang-19",
                "-w",
                "-D_GNU_SOURCE",
                f"-I{TOOLS}",
                f"-I{TOOLS}/runtime",
                *left_out,
                "-o",
                program,
                source,
                f"{TOOLS}/runtime/libpmem.c",
            ],
            check=True,
        )
        ran = subprocess.run([program], stdout=subprocess.PIPE, encoding="ascii", check=True)
        self.assertEqual([line.strip() for line in ran.stdout.splitlines()], WANTED)


if __name__ == "__main__":
    unittest.main()
