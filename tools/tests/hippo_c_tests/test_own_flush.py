"""Suggestions in the words of a program: its own flush and fence, and one flush after a loop."""
from .common import Case

OWN = """#include <hippo.h>
#include <stdint.h>
static void write_back(const void *from, size_t size) {
  for (uintptr_t line = (uintptr_t)from & ~63ul; line < (uintptr_t)from + size; line += 64)
    _mm_clwb((void *)line);
}
#define BARRIER() _mm_sfence()
struct item { long key, value; };
PERSISTENT struct item items[40];
PERSISTENT long count, sums[40], last;
PERSISTENT unsigned char bytes[200];
int main(void) {
  long most = read_i64();
  for (int i = 0; i < 40; i++)
    items[i].key = i;
  for (long i = 2; i <= most; i++) {
    sums[i] = i;
  }
  for (int i = 0; i < 40; i++) {
    bytes[i] = 1;
    if (i == 30)
      break;
  }
  count = 40;
  last = 1;
  write_back(&last, sizeof last);
  return 0;
}
"""
OF_LIBPMEM = """#include <hippo.h>
PERSISTENT long a[64], b[64], n;
static void fill(long *to, int count) {
  for (int i = 0; i < count; ++i)
    to[i] = i + 1;
}
int main(void) {
  fill(a, 64);
  int k = 0;
  for (int i = 0; i < 64; i++) {
    b[k] = i;
    k++;
  }
  n = 1;
  pmem_persist(&n, sizeof n);
  return 0;
}
"""


class OwnFlush(Case):
    """What is suggested."""

    def test_functions_of_the_program(self) -> None:
        """They are found by themselves: a loop over lines with clwb, and a macro that fences. A loop that is left early has its flushes inside."""
        self.write("a.c", OWN)
        ran = self.hippo_c("check", "a.c", "--verify-fix", "--diff", "a.diff", "--input", "9", code=1)
        for text in (
            "add 'write_back(items, 40 * sizeof(items[0])); BARRIER();' after this loop",
            "add 'if (2 < (most + 1)) write_back(&sums[2], ((most + 1) - 2) * sizeof(sums[0])); BARRIER();' after this loop",
            "add 'write_back(&bytes[i], sizeof(bytes[i])); BARRIER();' after this statement",
            "a.c:5:5: note: suggestion: add '_mm_sfence();' after this flush",
        ):
            self.assertIn(text, ran.stdout)
        self.assertIn("with the suggestions applied: 0 reports\n", ran.stdout)
        self.assertIn("+  write_back(items, 40 * sizeof(items[0]));\n", self.read("a.diff"))

    def test_a_loop_with_libpmem(self) -> None:
        """A range is flushed where the loop counts its index, and not where it counts another variable."""
        self.write("a.c", OF_LIBPMEM)
        ran = self.hippo_c("check", "a.c", "-O0", "--verify-fix", code=1)
        self.assertIn("add 'if (0 < count) pmem_flush(to, count * sizeof(to[0]));' after this loop", ran.stdout)
        self.assertIn("add 'pmem_flush(&b[k], sizeof(b[k]));' after this statement", ran.stdout)
        self.assertIn("with the suggestions applied: 0 reports\n", ran.stdout)

    def test_named_functions(self) -> None:
        """--flush-with and --fence-with name them; a function that the file does not declare is an edit by hand, with clang's reason."""
        self.write("own.h", "#include <stddef.h>\nvoid out(const void *from, size_t size);\nvoid barrier(void);\n")
        self.write(
            "own.c",
            '#include <hippo.h>\n#include "own.h"\nvoid out(const void *p, size_t n) { pmem_flush(p, n); }\nvoid barrier(void) { _mm_sfence(); }\n',
        )
        text = '#include <hippo.h>\n#include "own.h"\nPERSISTENT long n;\nint main(void) {\n  n = 1;\n  return 0;\n}\n'
        self.write("a.c", text)
        words = ("check", "a.c", "own.c", "--flush-with", "out", "--fence-with", "barrier", "--verify-fix")
        ran = self.hippo_c(*words, code=1)
        self.assertIn("add 'out(&n, sizeof(n)); barrier();' after this statement", ran.stdout)
        self.assertIn("with the suggestions applied: 0 reports\n", ran.stdout)
        self.write("a.c", text.replace('#include "own.h"\n', ""))
        ran = self.hippo_c(*words, code=1)
        self.assertRegex(ran.stdout, r"suggestion \(by hand: clang says: .*'out'")
        self.refused("take the name of a function, not 'out()'", "check", "a.c", "--flush-with", "out()")
