"""The baseline: known groups are left out, and each new one is shown, also beside an equal one in the same function."""
import json
import unittest

from .common import Case

from hippo_c.statements import split

HEAD = "#include <hippo.h>\nstruct pair { long a, b; };\nPERSISTENT struct pair s;\n"
KNOWN = (
    HEAD
    + """static void f(struct pair *p) {
  p->a = 1;
  pm_assert(&p->a, 8);
  _mm_clwb(p);
  _mm_sfence();
}
int main(void) {
  f(&s);
  return 0;
}
"""
)
# The same stores a second time, in a loop, and another statement with a store to the same object.
NEW = KNOWN.replace(
    "  _mm_sfence();\n}\n",
    """  _mm_sfence();
  for (int i = 0; i < 3; i++) {
    p->a = i;
    pm_assert(&p->a, 8);
    _mm_clwb(p);
    _mm_sfence();
  }
  p->a = 9;
}
""",
)


class Baseline(Case):
    """What check leaves out, says and answers."""

    def check(self, text: str, *words: str, code: int) -> list[str]:
        """The lines that check prints for a program."""
        self.write("a.c", text)
        ran = self.hippo_c("check", "a.c", "--no-source", "--no-coverage", *words, code=code)
        return str(ran.stdout).splitlines()

    def lines_of_warnings(self, lines: list[str]) -> list[int]:
        """The lines of C of the warnings."""
        return [int(line.split(":")[1]) for line in lines if ": warning: store" in line]

    def test_new_bugs_of_the_same_kind_in_the_same_function(self) -> None:
        self.check(KNOWN, "--write-baseline", "known", code=1)
        lines = self.check(KNOWN, "--baseline", "known", code=0)
        self.assertEqual(lines[-1], "known: 1 report in 1 group known and left out; 0 reports in 0 groups new")
        self.assertEqual(self.lines_of_warnings(lines), [])
        lines = self.check(NEW, "--baseline", "known", code=1)
        self.assertEqual(self.lines_of_warnings(lines), [10, 15])
        self.assertEqual(lines[-1], "known: 1 report in 1 group known and left out; 4 reports in 2 groups new")

    def test_a_new_statement_before_a_known_one_is_the_new_one(self) -> None:
        self.check(KNOWN, "-O0", "--write-baseline", "known", code=1)
        store = "  p->a = 5;\n  pm_assert(&p->a, 8);\n  _mm_clwb(p);\n  _mm_sfence();\n"
        lines = self.check(KNOWN.replace("  p->a = 1;", store + "  p->a = 1;"), "-O0", "--baseline", "known", code=1)
        self.assertEqual(self.lines_of_warnings(lines), [5])
        self.assertEqual(lines[-1], "known: 1 report in 1 group known and left out; 1 report in 1 group new")

    def test_one_more_of_equal_statements_is_new(self) -> None:
        """n known groups and n + k found ones are k new ones, wherever the new statements stand."""
        store = "  p->a = 1;\n  pm_assert(&p->a, 8);\n  _mm_clwb(p);\n  _mm_sfence();\n"
        for known, found in ((1, 2), (2, 3), (2, 5)):
            self.check(KNOWN.replace(store, store * known), "-O0", "--write-baseline", "known", code=1)
            lines = self.check(KNOWN.replace(store, store * found), "-O0", "--baseline", "known", code=1)
            self.assertEqual(len(self.lines_of_warnings(lines)), found - known)
            self.assertIn(f'{known} group{"s" if known > 1 else ""} known and left out', lines[-1])

    def test_equal_statements_by_two_inputs(self) -> None:
        text = HEAD + (
            "int main(void) {\n  if (read_i64()) {\n    s.a = 1;\n    pm_assert(&s, 8);\n  }%s\n  _mm_clwb(&s);\n  _mm_sfence();\n  return 0;\n}\n"
        )
        other = " else {\n    s.a = 1;\n    pm_assert(&s, 8);\n  }"
        self.write("inputs", "1\n0\n")
        self.check(text % "", "--inputs", "inputs", "-O0", "--write-baseline", "known", code=1)
        lines = self.check(text % other, "--inputs", "inputs", "-O0", "--baseline", "known", code=1)
        self.assertEqual(self.lines_of_warnings(lines), [9])
        self.assertEqual(lines[-1], "known: 1 report in 1 group known and left out; 1 report in 1 group new")

    def test_lines_and_layout_may_change(self) -> None:
        self.check(NEW, "--write-baseline", "known", code=1)
        moved = NEW.replace("static void f", "// one\n\n/* two */ static void f").replace(
            "p->a = i;", "p->a  =   /* a comment; with { */ i ; // and another"
        )
        moved = moved.replace("    pm_assert", "\n#if 1\n    pm_assert").replace("    _mm_clwb", "#endif\n    _mm_clwb")
        lines = self.check(moved, "--baseline", "known", code=0)
        self.assertEqual(lines[-1], "known: 5 reports in 3 groups known and left out; 0 reports in 0 groups new")
        lines = self.check(NEW.replace("p->a = i;", "p->a = i + 1;"), "--baseline", "known", code=1)
        self.assertEqual(self.lines_of_warnings(lines), [10])

    def test_a_trap_is_not_left_out(self) -> None:
        trap = KNOWN.replace("  return 0;", "  __builtin_trap();")
        self.check(trap, "--write-baseline", "known", code=1)
        self.check(trap, "--baseline", "known", code=2)

    def test_the_forms_say_what_was_left_out(self) -> None:
        self.check(KNOWN, "--write-baseline", "known", code=1)
        self.check(NEW, "--baseline", "known", "--json", "a.json", "--sarif", "a.sarif", "--html", "a.html", code=1)
        found = json.loads(self.read("a.json"))["inputs"][0]
        self.assertEqual(
            (found["left_out"], found["reports"], len(found["groups"])), ({"groups": 1, "reports": 1}, 4, 2)
        )
        results = json.loads(self.read("a.sarif"))["runs"][0]["results"]
        self.assertEqual(
            [result["partialFingerprints"]["hippoStore/v2"] for result in results],
            [group["fingerprint"] for group in found["groups"]],
        )
        self.assertIn("1 report in 1 group known and left out", self.read("a.html"))

    def test_a_text_of_llvm(self) -> None:
        """Without lines of C the instruction stands for the statement."""
        one = "  store i64 %s, ptr @x\n  call void @pm_assert(ptr @x, i64 8)\n"
        text = '@x = global i64 0, section ".pm"\ndeclare void @pm_assert(ptr, i64)\ndefine i32 @main() {\nentry:\n%s  ret i32 0\n}\n'
        self.write("a.ll", text % (one % 1))
        self.hippo_c("check", "a.ll", "--write-baseline", "known", code=1)
        self.hippo_c("check", "a.ll", "--baseline", "known", code=0)
        self.write("a.ll", text % (one % 1 + one % 2))
        ran = self.hippo_c("check", "a.ll", "--baseline", "known", code=1)
        self.assertIn("known: 1 report in 1 group known and left out; 2 reports in 1 group new", ran.stdout)


class Files(Case):
    """What a baseline may be."""

    def test_other_forms_are_refused_by_name(self) -> None:
        self.write("a.c", KNOWN)
        mark = "0" * 64
        self.write(
            "old",
            "# Groups of reports that are known, for hippo-c check --baseline. Made by --write-baseline.\n"
            f"{mark} missing-flush s.a f\n",
        )
        self.write(
            "next",
            f"# Known groups of reports for hippo-c check --baseline, form 3. Made by --write-baseline.\n{mark} x\n",
        )
        self.write("other", "{}\n")
        self.hippo_c("check", "a.c", "--write-baseline", "cut", code=1)
        self.write("cut", self.read("cut")[:-100])
        for name, text in (
            (
                "old",
                "old: a baseline of form 1, which also hides new groups; this hippo-c reads form 2\nhippo-c: hint: look at what check shows "
                "without it, and make it again by --write-baseline\n",
            ),
            ("next", "next: a baseline of form 3; this hippo-c reads form 2\n"),
            ("other", "other: not a baseline\n"),
            ("cut", "cut:2: not a line of a baseline\n"),
        ):
            self.refused(text, "check", "a.c", "--baseline", name)

    def test_an_empty_file_knows_nothing(self) -> None:
        self.write("a.c", KNOWN)
        ran = self.hippo_c("check", "a.c", "--baseline", "/dev/null", code=1)
        self.assertEqual(
            ran.stdout.splitlines()[-1], "/dev/null: 0 reports in 0 groups known and left out; 1 report in 1 group new"
        )

    def test_a_reader_understands_it(self) -> None:
        self.write("a.c", NEW)
        self.hippo_c("check", "a.c", "--write-baseline", "known", code=1)
        lines = self.read("known").splitlines()
        self.assertEqual(
            lines[0], "# Known groups of reports for hippo-c check --baseline, form 2. Made by --write-baseline."
        )
        self.assertEqual(
            [line[65:] for line in lines[1:]],
            [
                "missing-flush-and-fence s.a in f: p -> a = 1",
                "missing-flush-and-fence s.a in f: p -> a = 9",
                "missing-flush-and-fence s.a in f: p -> a = i",
            ],
        )


class Statements(unittest.TestCase):
    """The statements of a source."""

    def test_ends_of_statements(self) -> None:
        text = (
            "#define X(a) { a; \\\n  b; }\nint f(void) {\n  for (i = 0; i < n; i++) a[i] = \"};{\"[i]; // ; {\n  b = ';'; /* ; */ c =\n  (struct s){1, 2};\n"
            "  g(({ int t = 1; t; }), 2);\n}\n"
        )
        found = list(split(text))
        self.assertEqual(
            [statement.text for statement in found],
            [
                "int f ( void )",
                'for ( i = 0 ; i < n ; i ++ ) a [ i ] = "};{" [ i ]',
                "b = ';'",
                "c = ( struct s )",
                "1 , 2",
                "g ( (",
                "int t = 1",
                "t",
                ") , 2 )",
            ],
        )
        self.assertEqual([text[statement.begin] for statement in found], ["i", "f", "b", "c", "1", "g", "i", "t", ")"])

    def test_sources_that_do_not_close_what_they_open(self) -> None:
        self.assertEqual(
            [statement.text for statement in split('} ) ; a ( ; { b ; } c ; ) d "x')],
            [")", "a ( ;", "b", 'c ; ) d " x'],
        )


if __name__ == "__main__":
    unittest.main()
