"""The lines that no input ran, and the files in which many groups stand."""
import json

from .common import Case

PROGRAM = """#include <hippo.h>
PERSISTENT long a[16];
static void rare(void) {
  a[0] = 1;
  pmem_persist(a, sizeof a);
}
int main(void) {
  long n = read_i64();
  if (n == 1)
    rare();
  if (n == 2)
    a[1] = 2;
  if (n == 3)
    a[2] = 3;
  return 0;
}
"""
MANY = "#include <hippo.h>\nPERSISTENT long a[16];\nvoid put(void);\nvoid put(void) {\n{stores}}\n"


class Coverage(Case):
    """What is said of lines that did not run."""

    def test_lines_that_did_not_run(self) -> None:
        """Of all inputs together; in the JSON also of each."""
        self.write("a.c", PROGRAM)
        self.write("inputs", "1\n2\n")
        ran = self.hippo_c("check", "a.c", "-O0", "--inputs", "inputs", "--uncovered", "--json", "a.json", code=1)
        self.assertEqual(ran.stdout.split("\n")[0], "a.c:14: not run")
        answer = json.loads(self.read("a.json"))
        self.assertEqual(answer["lines"]["not_run"], {"a.c": [[14, 14]]})
        self.assertEqual(
            [item["lines"]["not_run"]["a.c"] for item in answer["inputs"]],
            [[[12, 12], [14, 14]], [[4, 6], [10, 10], [14, 14]]],
        )
        self.refused("leave out --no-coverage", "check", "a.c", "--uncovered", "--no-coverage")

    def test_many_groups_of_a_file(self) -> None:
        """A file of a library that never flushes has a line of its own; a file that flushes by a helper does flush."""
        stores = "".join(f"  a[{number}] = {number + 1};\n" for number in range(11))
        self.write("put.c", MANY.replace("{stores}", stores))
        self.write(
            "main.c",
            "#include <hippo.h>\nPERSISTENT long b, c;\nvoid put(void);\nstatic void keep(long *p) { pmem_persist(p, 8); }\n"
            "int main(void) {\n  put();\n  b = 1;\n  keep(&b);\n  c = 1;\n  return 0;\n}\n",
        )
        ran = self.hippo_c("check", "put.c", "main.c", "-O0", "--no-source", code=1)
        self.assertEqual(
            ran.stdout.splitlines()[-3:-1], ["11 groups in put.c, which has no flush", "1 group in main.c"], ran.stdout
        )
