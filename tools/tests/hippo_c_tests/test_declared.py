"""What a program declares volatile to pmemcheck, by the requests of its header."""
import json
from typing import Any

from .common import Case

# The requests as pmemcheck's header has them, over the macros of valgrind.h.
HEAD = """#include <hippo.h>
#include <valgrind/valgrind.h>
#define REQUEST(number, ...) VALGRIND_DO_CLIENT_REQUEST_EXPR(0, ('P' << 24 | 'C' << 16) + (number), __VA_ARGS__)
#define REGISTER(at, size) REQUEST(0, at, size, 0, 0, 0)
#define REGISTER_FILE(at, size) REQUEST(1, 5, at, size, 0, 0)
#define REMOVE(at, size) REQUEST(2, at, size, 0, 0, 0)
#define DO_FLUSH(at, size) REQUEST(5, at, size, 0, 0, 0)
#define DO_FENCE REQUEST(6, 0, 0, 0, 0, 0)
#define SET_CLEAN(at, size) REQUEST(17, at, size, 0, 0, 0)
#define START_TX REQUEST(18, 0, 0, 0, 0, 0)
#define ADD_TO_TX(at, size) REQUEST(22, at, size, 0, 0, 0)
"""


class Declared(Case):
    """Reports of bytes that requests take out."""

    def answer(self, text: str, code: int, *words: str) -> dict[str, Any]:
        """The answer for a program on its one input; its lines count from 1."""
        self.write("head.h", HEAD)
        self.write("a.c", f'#include "head.h"\n#line 1\n{text}')
        self.hippo_c("check", "a.c", "--json", "a.json", *words, code=code)
        found: dict[str, Any] = json.loads(self.read("a.json"))["inputs"][0]
        return found

    def lines(self, text: str, code: int) -> tuple[list[int], list[tuple[int, int]]]:
        """The lines of the stores that are reported, and of each request its line and how many reports it takes out."""
        found = self.answer(text, code)
        return (
            [group["store"]["line"] for group in found["groups"]],
            [(item["place"]["line"], item["reports"]) for item in found["declared"]],
        )

    def test_clean_bytes(self) -> None:
        """SET_CLEAN is about the stores before it, and about whole stores alone."""
        text = """PERSISTENT static volatile long a[4];
int main(void) {
  a[0] = 1;
  a[1] = 2;
  SET_CLEAN(a, 12);
  SET_CLEAN(a + 3, 8);
  a[3] = 3;
  a[2] = 4;
  SET_CLEAN(a + 2, 8);
  return 0;
}
"""
        self.assertEqual(self.lines(text, 1), ([4, 7], [(5, 1), (9, 1)]))

    def test_removed_and_registered(self) -> None:
        """REMOVE_PMEM_MAPPING is about the stores after it, until the bytes are registered again."""
        text = """PERSISTENT static volatile long a[5];
int main(void) {
  a[1] = 1;
  REMOVE(a, sizeof a);
  a[0] = 2;
  a[3] = 2;
  REGISTER(a, 8);
  REGISTER_FILE(a + 2, 16);
  a[2] = 3;
  a[3] = 3;
  a[4] = 3;
  return 0;
}
"""
        self.assertEqual(self.lines(text, 1), ([3, 9, 10], [(4, 2)]))

    def test_all_are_declared(self) -> None:
        """Then the program has no report, the exit code is 0, and a line counts what was left out."""
        text = """PERSISTENT static _Alignas(64) volatile long lock, kept[9];
static int on_pmemcheck;
static void begin(void) { if (RUNNING_ON_VALGRIND) on_pmemcheck = REQUEST(3, &on_pmemcheck, 4, 0, 0, 0) == 1; }
int main(void) {
  begin();
  if (on_pmemcheck) { START_TX; ADD_TO_TX(&kept[8], 8); REMOVE(&on_pmemcheck, 4); REMOVE(&lock, sizeof lock); }
  for (int i = 0; i < 3; i++) lock = i;
  kept[8] = 5;
  if (on_pmemcheck) { DO_FLUSH(&kept[8], 8); DO_FENCE; }
  pmem_persist((void *)&kept[8], 8);
  return 0;
}
"""
        found = self.answer(text, 0)
        self.assertEqual((found["reports"], found["stores"]), (0, 4))
        said = self.hippo_c("check", "a.c", code=0).stdout
        self.assertIn("\n1 report of bytes that the program declares volatile (a.c:6)\n0 reports in 0 groups", said)
        shown = self.hippo_c("check", "a.c", "--declared", code=0).stdout
        self.assertIn("a.c:7:36: warning: store of 8 bytes to 'lock' is not durable", shown)
        self.assertIn("a.c:6:83: note: the program declares these bytes volatile to pmemcheck here", shown)

    def test_one_place_of_which_some_are_declared(self) -> None:
        """Reports of one line of C differ by the addresses of the stores and by their checks."""
        text = """PERSISTENT static long a[8];
int main(void) {
  for (int i = 0; i < 8; i++) a[i] = 1;
  pm_assert(a, 8);
  SET_CLEAN(a, 40);
  return 0;
}
"""
        self.assertEqual(self.lines(text, 1), ([3], [(5, 4)]))
        self.assertEqual(self.answer(text, 1)["reports"], 5)

    def test_a_range_partly_outside(self) -> None:
        self.write("head.h", HEAD)
        self.write(
            "a.c",
            '#include "head.h"\n#line 1\nPERSISTENT long a;\nint main(void) { a = 1; SET_CLEAN(&a, 4096); return 0; }\n',
        )
        said = self.hippo_c("check", "a.c", code=2).stderr
        self.assertIn(
            "hippo-c: error: a.c:2: the range of VALGRIND_PMC_SET_CLEAN is partly outside of persistent memory: 4096 bytes at",
            said,
        )

    def test_no_request(self) -> None:
        self.assertEqual(self.answer("PERSISTENT long a;\nint main(void) { a = 1; return 0; }\n", 1)["declared"], [])


if __name__ == "__main__":
    import unittest

    unittest.main()
