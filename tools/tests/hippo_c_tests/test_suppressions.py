"""Reports that the source leaves out, with a reason: each suppression hides its own store and nothing else."""
import json
import unittest
from typing import Any

from .common import Case

from hippo_c.marks import marks_of

COMMENTS = """#include <hippo.h>
PERSISTENT volatile long a, b, c, d, e[4], f, g, h, i;
#define ONE(x) do { d = (x); } while (0)
#define TWO(x) do { f = (x); g = (x); } while (0)
static void put(long x) {
  a = x; b = x; // hippo: volatile, b is a cache
  c = x;
}
int main(void) {
  put(1); // hippo: volatile, the stores are those of put
  ONE(2); // hippo: volatile, counted again
  TWO(3); // hippo: volatile, a macro with two stores
  h = i = 4; // hippo: volatile, one statement with two stores
  for (int j = 0; j < 4; j++) e[j] = j; /* hippo: volatile, filled at start */
  return 0;
}
"""
SCRATCH = """#include <hippo.h>
struct part { int x; int y PERSISTENT_SCRATCH("y is found again"); };
struct pool {
  long count;
  long puts PERSISTENT_SCRATCH("statistics");
  long gets PERSISTENT_SCRATCH("statistics too");
  struct part parts[3];
  union { long whole; int half PERSISTENT_SCRATCH("a half"); };
};
PERSISTENT volatile struct pool pool;
PERSISTENT volatile long cache[2] PERSISTENT_SCRATCH("made again"), kept;
static void fill(volatile unsigned char *from, int size) {
  for (int i = 0; i < size; i++)
    from[i] = 1;
}
int main(void) {
  pool.count = 1;
  pool.puts = 2;
  pool.parts[1].x = 3;
  pool.parts[2].y = 4;
  pool.half = 5;
  cache[1] = 6;
  kept = 7;
  *(volatile long *)&pool.parts[0] = 8;
  fill((volatile unsigned char *)&pool, 24);
  return 0;
}
"""


class Suppressions(Case):
    """What is reported and what is left out, on programs in which nothing is flushed."""

    def answer(self, text: str, code: int, *words: str) -> dict[str, Any]:
        """The answer for a program."""
        self.write("a.c", text)
        self.hippo_c("check", "a.c", "--json", "a.json", *words, code=code)
        found: dict[str, Any] = json.loads(self.read("a.json"))
        return found

    @staticmethod
    def stores(groups: list[dict[str, Any]]) -> list[tuple[int, str]]:
        """The lines and the objects of groups."""
        return sorted((group["store"]["line"], group["object"]) for group in groups)

    def test_comments(self) -> None:
        """A comment hides the one store of the statement before it: not that of a statement on the same line, nor that of a called
        function, nor one of several."""
        found = self.answer(COMMENTS, 1)
        one = found["inputs"][0]
        self.assertEqual(
            self.stores(one["groups"]), [(6, "a"), (7, "c"), (12, "f"), (12, "g"), (13, "h"), (13, "i")], one["groups"]
        )
        left_out = [
            (item["place"]["line"], item["by"], item["reason"], item["reports"], self.stores(item["groups"]))
            for item in one["suppressed"]
        ]
        self.assertEqual(
            left_out,
            [
                (6, "comment", "b is a cache", 1, [(6, "b")]),
                (11, "comment", "counted again", 1, [(11, "d")]),
                (14, "comment", "filled at start", 4, [(14, "e[0]")]),
            ],
        )
        said = [(item["place"]["line"], item["message"].partition(": ")[2][:20]) for item in found["suppressions"]]
        self.assertEqual(
            said,
            [
                (10, "no store that it nam"),
                (12, "its statement has se"),
                (13, "its statement has se"),
            ],
        )

    def test_declarations(self) -> None:
        """PERSISTENT_SCRATCH hides the stores whose bytes all lie in its object, each report by its own bytes."""
        found = self.answer(SCRATCH, 1)
        one = found["inputs"][0]
        self.assertEqual(
            self.stores(one["groups"]),
            [
                (14, "pool.count"),
                (19, "pool.parts[1].x"),
                (21, "pool.whole"),
                (23, "kept"),
                (24, "pool.parts[0].x"),
            ],
        )
        self.assertEqual([group["reports"] for group in one["groups"] if group["store"]["line"] == 14], [8])
        left_out = {item["reason"]: (item["place"]["line"], item["reports"]) for item in one["suppressed"]}
        self.assertEqual(
            left_out,
            {
                "y is found again": (2, 1),
                "statistics": (5, 8),
                "statistics too": (6, 8),
                "made again": (11, 1),
            },
        )
        self.assertEqual([item["place"]["line"] for item in found["suppressions"]], [8])

    def test_the_last_line_counts(self) -> None:
        """All that is left out is counted in the last line, and shown on demand; the exit code is that of what is left."""
        text = "#include <hippo.h>\nPERSISTENT long n;\nint main(void) {\n  n++; // hippo: volatile, recounted at start\n  return 0;\n}\n"
        self.write("a.c", text)
        ran = self.hippo_c("check", "a.c", "--declared", "--sarif", "a.sarif", code=0)
        self.assertIn(
            "0 reports in 0 groups, 1 report in 1 group suppressed in the source; ", ran.stdout.splitlines()[-1]
        )
        self.assertIn("a.c:4:8: note: suppressed here: recounted at start\n", ran.stdout)
        (result,) = json.loads(self.read("a.sarif"))["runs"][0]["results"]
        self.assertEqual(result["suppressions"][0]["justification"], "recounted at start")
        self.assertEqual(self.hippo_c("check", "a.c", code=0).stdout.count("warning: store"), 0)

    def test_one_that_fits_nothing_is_a_warning(self) -> None:
        """Also where the program has no report, and where the comment has another word."""
        text = (
            "#include <hippo.h>\nPERSISTENT long n;\nint main(void) {\n  n = 1;\n  pmem_persist(&n, 8); // hippo: volatile, old\n"
            "  return 0; // hippo: persistent, other word\n}\n"
        )
        self.write("a.c", text)
        ran = self.hippo_c("check", "a.c", code=0)
        self.assertIn("a.c:5:24: warning: this suppression leaves out nothing", ran.stdout)
        self.assertIn("a.c:6:13: warning: the comment is not of this form: // hippo: volatile, REASON", ran.stdout)

    def test_no_suppression_without_a_reason(self) -> None:
        """A comment and a declaration without a reason are refused, with their lines."""
        for number, (line, why) in enumerate(
            [
                ("n++; // hippo: volatile", "a.c:4:6: the comment has no reason: // hippo: volatile, REASON"),
                ("n++; /* hippo: volatile,  */", "a.c:4:6: the comment has no reason: // hippo: volatile, REASON"),
            ]
        ):
            text = f"#include <hippo.h>\nPERSISTENT long n;\nint main(void) {{\n{line}\n  return 0;\n}}\n"
            self.write("a.c", text)
            with self.subTest(number):
                self.refused(why, "check", "a.c")
        self.write(
            "a.c", '#include <hippo.h>\nPERSISTENT PERSISTENT_SCRATCH(" ") long n;\nint main(void) { n++; return 0; }\n'
        )
        self.refused("a.c:2: PERSISTENT_SCRATCH has no reason", "check", "a.c")

    def test_headers_and_edited_files(self) -> None:
        """A suppression in a header counts, and it still does in the files that --verify-fix edits."""
        self.write(
            "count.h",
            "static void count(void) {\n  static int twice;\n  twice++;\n  n++; // hippo: volatile, of a header\n}\n",
        )
        self.write(
            "a.c",
            '#include <hippo.h>\nPERSISTENT long n, m;\n#include "count.h"\nint main(void) {\n  m = 1;\n  count();\n  return 0;\n}\n',
        )
        ran = self.hippo_c("check", "a.c", "--verify-fix", code=1)
        self.assertIn("1 report in 1 group, 1 report in 1 group suppressed in the source", ran.stdout)
        self.assertIn("with the suggestions applied: 0 reports", ran.stdout)

    def test_other_files(self) -> None:
        """A store at the same place of another file is reported."""
        text = "#include <hippo.h>\nPERSISTENT static volatile long n;\nvoid NAME(void);\nvoid NAME(void) {\n  n = 1;END\n}\n"
        self.write("a.c", text.replace("NAME", "a").replace("END", " // hippo: volatile, of a"))
        self.write("b.c", text.replace("NAME", "b").replace("END", ""))
        self.write("main.c", "void a(void), b(void);\nint main(void) { a(); b(); return 0; }\n")
        self.hippo_c("check", "a.c", "b.c", "main.c", "--json", "a.json", code=1)
        one = json.loads(self.read("a.json"))["inputs"][0]
        self.assertEqual([group["store"]["file"] for group in one["groups"]], ["b.c"])
        self.assertEqual([item["groups"][0]["store"]["file"] for item in one["suppressed"]], ["a.c"])

    def test_cpp(self) -> None:
        """In C++ the comment counts, and the declaration is refused by the compiler, which names the comment."""
        text = (
            "#include <hippo.h>\nPERSISTENT long n;\nint main() {\n  n++; // hippo: volatile, of C++\n  return 0;\n}\n"
        )
        self.write("a.cpp", text)
        self.assertIn("suppressed in the source", self.hippo_c("check", "a.cpp", code=0).stdout)
        self.write("a.cpp", text.replace("long n;", 'long n PERSISTENT_SCRATCH("no");'))
        self.refused("in C++ write the comment // hippo: volatile, REASON", "check", "a.cpp")


class Marks(unittest.TestCase):
    """Which statement a comment belongs to, by the letters alone."""

    def test_statements(self) -> None:
        rows = {
            b"a = 1; b = 2; // hippo: volatile, r": b"b = 2;",
            b"a = 1;\n// hippo: volatile, r": b"",
            b'a = "// hippo: volatile, r";': None,
            b"a[0] = (struct s){1, 2}; // hippo: volatile, r": b"a[0] = (struct s){1, 2};",
            b"if (x) { a = 1; } // hippo: volatile, r": b"",
            b"a = f(1, // hippo: volatile, r\n 2);": b"a = f(1, // hippo: volatile, r\n 2);",
            b"a = 1; } b = 2; // hippo: volatile, r": b"b = 2;",
            b"a = 1; /* x */ // hippo: volatile, r": b"",
            b"for (i = 0; i < 9; i++) a[i] = 0; // hippo: volatile, r": b"for (i = 0; i < 9; i++) a[i] = 0;",
            b"a = 1; // see hippo: volatile, r": None,
        }
        for text, statement in rows.items():
            with self.subTest(text):
                marks = marks_of(text + b"\n")
                self.assertEqual(
                    [text[mark.begin : mark.end] for mark in marks], [] if statement is None else [statement]
                )


if __name__ == "__main__":
    unittest.main()
