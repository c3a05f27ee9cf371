"""Commit points: lines, functions and globals before whose stores all that was stored so far must be durable."""
import json
import unittest

from .common import Case

from hippo_c.commits import sites_of
from hippo_c.program import Program

LOG = """#include <hippo.h>
PERSISTENT struct { long count; _Alignas(64) long items[8]; _Alignas(64) long sum; } store;
PERSISTENT _Alignas(64) long root;
static void __attribute__((noinline)) put(long n) {
  store.items[store.count] = n;
  _mm_clwb(&store.items[store.count]);
  store.count++;
  pmem_persist(&store.count, 8);
}
int main(void) {
  for (int i = 0; i < 3; i++) put(i + 1);
  store.sum = 6;
  root = 1;
  pmem_persist(&root, 8);
  pmem_persist(&store.sum, 8);
  return 0;
}
"""
# `bump` commits twice in one block; before the second time a fence is missing.
TWICE = """#include <hippo.h>
PERSISTENT _Alignas(64) long items[16], count;
static inline __attribute__((always_inline)) void bump(void) {
  count++;
  pmem_persist(&count, sizeof count);
}
int main(void) {
  items[0] = 1;
  _mm_clwb(&items[0]);
  _mm_sfence();
  bump();
  items[8] = 2;
  _mm_clwb(&items[8]);
  bump();
  return 0;
}
"""
# The call stores what commits, and the line stores its result to volatile memory.
BY_CALL = """#include <hippo.h>
PERSISTENT _Alignas(64) long item, root;
long done;
static __attribute__((noinline)) long commit(void) {
  root = 1;
  pmem_persist(&root, sizeof root);
  return 1;
}
int main(void) {
  item = 1;
  _mm_clwb(&item);
  done = commit();
  return 0;
}
"""


class Commit(Case):
    """What --commit adds to a check; without it this program has no report."""

    def found(self, *words: str, code: int = 1) -> list[tuple[int, str, int, int]]:
        """Of each group the line of its store, what is missing, the number of reports, and the line of the check."""
        self.write("log.c", LOG)
        self.hippo_c("check", "log.c", "--no-coverage", "--json", "a.json", *words, code=code)
        groups = json.loads(self.read("a.json"))["inputs"][0]["groups"]
        return [(group["store"]["line"], group["kind"], group["reports"], group["check"]["line"]) for group in groups]

    def test_a_line(self) -> None:
        self.assertEqual(self.found(code=0), [])
        self.assertEqual(self.found("--commit", "log.c:7"), [(5, "missing-fence", 3, 7)])
        said = self.hippo_c("check", "log.c", "--no-coverage", "--commit", "log.c:7", code=1).stdout
        self.assertIn("is not durable before the commit point 'log.c:7' in log.c:7 [missing-fence, 3 reports]", said)

    def test_a_global(self) -> None:
        self.assertEqual(self.found("--commit", "root"), [(12, "missing-flush-and-fence", 1, 13)])
        self.assertEqual(
            self.found("--commit", "root,store"), [(5, "missing-fence", 3, 7), (12, "missing-flush-and-fence", 1, 13)]
        )

    def test_a_function(self) -> None:
        """The check stands before the function's first instruction."""
        self.assertEqual(self.found("--commit", "put", code=0), [])
        self.write("log.c", LOG.replace("  root = 1;\n", "  put(9);\n"))
        said = self.hippo_c("check", "log.c", "--no-coverage", "--commit", "put", code=1).stdout
        self.assertIn("to 'store.sum' is not durable before the commit point 'put' in log.c:5", said)

    def test_a_line_with_a_call(self) -> None:
        """Where a line stores by a call alone, the check stands before the call."""
        self.write(
            "copy.c",
            "#include <hippo.h>\n#include <string.h>\nPERSISTENT _Alignas(64) char text[64], head[64];\n"
            'int main(void) {\n  char local[9] = "12345678";\n  text[0] = 3;\n  memcpy(head, local, (size_t)read_i64());\n'
            "  pmem_persist(head, 8);\n  pmem_persist(text, 8);\n  return 0;\n}\n",
        )
        said = self.hippo_c("check", "copy.c", "--no-coverage", "--commit", "copy.c:7", "--input", "8", code=1).stdout
        self.assertIn(
            "to 'text[0]' is not durable before the commit point 'copy.c:7' in copy.c:7 [missing-flush-and-fence]", said
        )

    def test_a_line_that_a_block_goes_through_twice(self) -> None:
        self.write("twice.c", TWICE)
        for level in ("-O0", "-O1"):
            said = self.hippo_c("check", "twice.c", level, "--no-coverage", "--commit", "twice.c:4", code=1).stdout
            self.assertIn("twice.c:12:12: warning: store of 8 bytes to 'items[8]' is not durable before", said)
            self.assertIn("\n1 report in 1 group; 4 stores to persistent memory, 2 asserts", said)

    def test_a_line_with_a_call_and_a_store_to_volatile_memory(self) -> None:
        self.write("call.c", BY_CALL)
        for level in ("-O0", "-O1"):
            said = self.hippo_c("check", "call.c", level, "--no-coverage", "--commit", "call.c:12", code=1).stdout
            self.assertIn(
                "to 'item' is not durable before the commit point 'call.c:12' in call.c:12 [missing-fence]", said
            )

    def test_repair(self) -> None:
        """The repaired program is clean at the commit point, and does not contain the check."""
        self.write("log.c", LOG)
        self.hippo_c("repair", "log.c", "--commit", "log.c:7", "-o", "mended.ll", code=0)
        text = self.read("mended.ll")
        self.assertNotIn("call void @pm_assert(", text)
        self.assertIn("call void @llvm.x86.sse.sfence()", text)

    def test_suggestions(self) -> None:
        """Stores that are alone between two fences, those first that the next run reads first."""
        text = LOG.replace("  _mm_clwb(&store.items[store.count]);", "  pmem_persist(&store.items[store.count], 8);")
        text = text.replace("int main(void) {", "int main(void) {\n  if (root) return (int)(store.sum + store.count);")
        self.write("log.c", text)
        said = self.hippo_c("suggest-commits", "log.c", "--no-source", code=0).stdout.splitlines()
        self.assertEqual(
            said,
            [
                "log.c:7:14: note: --commit log.c:7: store to 'store.count' in 'put', alone between fences 3 times, read 3 of the next run",
                "log.c:5:28: note: --commit log.c:5: store to 'store.items[0]' in 'put', alone between fences 3 times",
                "2 candidates",
            ],
        )
        self.write("log.c", text.replace("  root = 1;", "  pmem_persist(&store.sum, 8);\n  root = 1;"))
        said = self.hippo_c("suggest-commits", "log.c", "--no-source", code=0).stdout.splitlines()
        self.assertEqual([line.split(" ")[3] for line in said[:-1]], ["log.c:15:", "log.c:13:", "log.c:7:", "log.c:5:"])

    def test_places_that_name_nothing(self) -> None:
        self.write("log.c", LOG)
        for place, hint in (
            ("log.c:99", "no instruction that stores or calls has this line"),
            ("rot", "is root meant?"),
            ("nothing", "main never reaches"),
        ):
            self.refused(
                f"--commit '{place}': no store or function in the program fits", "check", "log.c", "--commit", place
            )
            self.refused(hint, "check", "log.c", "--commit", place)


class Sites(unittest.TestCase):
    """Which instructions are meant."""

    def test_blocks_stand_in_any_order(self) -> None:
        """An address may be made in a block that stands after its use."""
        lines = [
            "  %field = getelementptr i8, ptr %element, i64 8 ; a.c:3:1",
            "  store i64 1, ptr %field ; a.c:3:2",
        ]
        for base, of_global, of_line in (
            ("getelementptr [4 x i64], ptr @g, i64 0, i64 %i", [("f", "use", 1)], [("f", "use", 1)]),
            ("alloca [4 x i64]", [], []),
            ("getelementptr [4 x i64], ptr @v, i64 0, i64 %i", [], []),
        ):
            text = "\n".join(
                [
                    '@g = global [4 x i64] zeroinitializer, section ".pm"',
                    "@v = global [4 x i64] zeroinitializer",
                    "define void @f(i64 %i) {",
                    "entry:",
                    "  br label %make",
                    "use:",
                    *lines,
                    "  ret void",
                    "make:",
                    f"  %element = {base}",
                    "  br label %use",
                    "}",
                ]
            )
            self.assertEqual(sites_of(Program(text), "g"), of_global, base)
            self.assertEqual(sites_of(Program(text), "a.c:3"), of_line, base)
