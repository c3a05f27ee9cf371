"""Functions with a part that has no form: they trap when the run calls them, before any effect; a strict command refuses them."""
from __future__ import annotations

import json
import unittest

from .common import Case, built_program

PROGRAM = """#include <hippo.h>
#include <fcntl.h>
PERSISTENT long n;
int elsewhere(long, const char *);
int (*volatile chosen)(long, const char *) = elsewhere;
volatile long double wide;
__attribute__((noinline)) static void scale(long by) {
  n = by;
  wide = wide * by;
}
int main(void) {
  long what = read_i64();
  if (what == 1)
    scale(5);
  if (what == 2)
    elsewhere(1, "a");
  if (what == 3)
    chosen(1, "a");
  if (what == 4)
    open("a", O_RDONLY);
  n = what;
  return 0;
}
"""
WARNINGS = (
    "1 function uses long double and traps if the run calls it (scale)",
    "1 function is not in the program and traps if the run calls it (elsewhere)",
    "1 function needs --file-calls and traps if the run calls it (open)",
)


@unittest.skipUnless(built_program(), "hippo is not built")
class Unsupported(Case):
    """A program that calls what has no form if its input says so."""

    def setUp(self) -> None:
        """Writes the program."""
        super().setUp()
        self.write("a.c", PROGRAM)

    def test_a_run_that_calls_none(self) -> None:
        """It is the whole run: its report is there, and a warning for each kind names the functions."""
        ran = self.hippo_c("check", "a.c", "--input", "7", code=1)
        for warning in WARNINGS:
            self.assertIn(f"hippo-c: warning: {warning}\n", ran.stdout)
        self.assertIn("store of 8 bytes to 'n' is not durable at the return of main", ran.stdout)
        self.assertIn("1 store to persistent memory", ran.stdout)

    def test_a_run_that_calls_one(self) -> None:
        """It ends there, at the line of what has no form or of the call, before anything that the function does."""
        for number, line, name, why, advice in (
            ("1", 9, "scale", "has no form here: .*long double", "use float or double"),
            ("2", 16, "elsewhere", "is not in the program", "add the C file that defines it"),
            ("3", 18, "elsewhere", "is not in the program", "add the C file that defines it"),
            ("4", 20, "open", "has no form here: the function @open: give --file-calls", "give the named option"),
        ):
            ran = self.hippo_c("check", "a.c", "--no-source", "--input", number, code=2)
            said = rf"a\.c:{line}:\d+: error: the run trapped: a call of '{name}', which {why}.* \[unsupported\]\n"
            self.assertRegex(ran.stdout, said)
            self.assertIn(f"note: what to do: {advice}", ran.stdout)
            self.assertIn("0 reports in 0 groups; 0 stores to persistent memory", ran.stdout)

    def test_a_check_that_never_runs(self) -> None:
        """The return of a function that traps when it is called is no check."""
        said = "--check-return 'scale': 'scale' never returns, since it has no form here: "
        self.refused(said, "check", "a.c", "--check-return", "scale", "--input", "7")

    def test_run_and_json(self) -> None:
        """The command run says it too, and the JSON has the kind and the warnings."""
        ran = self.hippo_c("run", "a.c", "--input", "1", code=2)
        self.assertIn("a call of 'scale', which has no form here", ran.stderr)
        answer = json.loads(self.hippo_c("check", "a.c", "--json", "-", "--input", "1", code=2).stdout)
        self.assertEqual(answer["inputs"][0]["trap"]["kind"], "unsupported")
        self.assertIn(WARNINGS[0], answer["inputs"][0]["warnings"])

    def test_strict_commands(self) -> None:
        """They refuse the program, and write nothing."""
        for words in (["check", "--strict"], ["repair", "-o", "a.o"], ["crash"], ["explore"]):
            with self.subTest(words=words):
                ran = self.hippo_c(words[0], "a.c", *words[1:], "--input", "7", code=2)
                self.assertIn("not lowered", ran.stderr)
                self.assertIn("the function @elsewhere is not in the program", ran.stderr)
                self.assertEqual(ran.stdout, "")
        self.assertEqual(self.names(), ["a.c"])

    def test_main_and_globals_stay_refused(self) -> None:
        """A run cannot begin without `main`, and what is persistent must be known."""
        self.write("a.c", "int main(void) {\n  volatile long double x = 1;\n  return x * 2 > 3;\n}\n")
        self.assertIn("a.c:3: ", self.hippo_c("check", "a.c", code=2).stderr)
        self.write("a.c", '__attribute__((section(".pmem"))) long n;\nint main(void) {\n  n = 1;\n  return 0;\n}\n')
        self.assertIn("section", self.hippo_c("check", "a.c", code=2).stderr)

    def names(self) -> list[str]:
        """The files of the folder."""
        return sorted(self.command("ls").stdout.split())


@unittest.skipUnless(built_program(), "hippo is not built")
class Assumed(Case):
    """What a command assumes that is not strict."""

    def test_output_and_words(self) -> None:
        """Text output writes nothing, with one note; `main` has the name of the program alone."""
        self.write(
            "a.c",
            "#include <hippo.h>\n#include <stdio.h>\nint main(int argc, char **argv) {\n"
            "  printf(\"%d\\n\", argc);\n  puts(argv[0]);\n  return argc != 1 || argv[0][0] != 'a' || argv[1];\n}\n",
        )
        note = "note: text output is left out (printf, puts); --print-numbers prints its integers\n"
        ran = self.hippo_c("check", "a.c", code=0)
        self.assertEqual(ran.stdout.count(note), 1)
        for words in (["--ignore-output"], ["--print-numbers"]):
            self.assertNotIn("text output is left out", self.hippo_c("check", "a.c", *words, code=0).stdout)
        self.assertEqual(self.hippo_c("run", "a.c", "--print-numbers", code=0).stdout.split(), ["1"])
        self.assertEqual(self.hippo_c("run", "a.c", "--print-numbers", "--args", "x", code=0).stdout.split(), ["2"])
        ran = self.hippo_c("check", "a.c", "--strict", code=2)
        self.assertIn("give --ignore-output or --print-numbers", ran.stderr)
        self.assertIn(
            "main uses its parameters", self.hippo_c("check", "a.c", "--strict", "--ignore-output", code=2).stderr
        )
        self.assertIn("give --ignore-output", self.hippo_c("repair", "a.c", "-o", "a.ll", code=2).stderr)
