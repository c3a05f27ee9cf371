"""The words of the command line in the search of explore."""
import re
import unittest

from .explore_case import BugCase

from hippo_c.words import decoded, encoded

COMMANDS = """#include <hippo.h>
#include <stdlib.h>
#include <string.h>

PERSISTENT struct {
  _Alignas(64) long count;
  _Alignas(64) long cells[8];
} s;

int main(int argc, char **argv) {
  for (int i = 1; i < argc; i++) {
    if (!strcmp(argv[i], "add") && i + 1 < argc) {
      s.cells[s.count & 7] = atoi(argv[++i]);
      pmem_persist(&s.cells[s.count & 7], 8);
      s.count++;
      pmem_persist(&s.count, 8);
    } else if (!strcmp(argv[i], "clear")) {
      s.count = 0; // no flush
    } else if (!strcmp(argv[i], "halve")) {
      s.count /= 2;
      pmem_flush(&s.count, 8); // no fence
    }
  }
  return 0;
}
"""


class Words(BugCase):
    """Programs that read the words of the command line."""

    def test_words_and_their_numbers(self) -> None:
        every: tuple[list[str], ...] = (
            [],
            ["add", "5"],
            ["", "a"],
            ["eightbyt", "sixteen letters.", "a longer word than these"],
            ["\udcff\udc80"],
        )
        for words in every:
            self.assertEqual(decoded([*encoded(words), 3, 4]), (words, [3, 4]), words)
        self.assertEqual(encoded(["set", "5"]), [7628147, 53, 0])
        self.assertEqual(decoded([7628147]), (["set"], []))

    def test_a_program_reads_its_words_from_the_input(self) -> None:
        self.write(
            "echo.c",
            "#include <hippo.h>\nint main(int argc, char **argv) {\n  print_i64(argc);\n  for (int i = 1; i < argc; i++) {\n"
            "    for (char *c = argv[i]; *c; c++) print_i64(*c);\n    print_i64(-1);\n  }\n  print_i64(argv[argc] == 0);\n"
            "  print_i64(read_i64());\n  return 0;\n}\n",
        )
        words = ["a", "", "seven l", "eight le", "nine lett", "x" * 40]
        plain = self.hippo_c("run", "echo.c", "--input", "9", "--args", *words, code=0).stdout
        numbers = list(map(str, [*encoded(words), 9]))
        self.assertEqual(self.hippo_c("run", "echo.c", "--args-from-input", "--input", *numbers, code=0).stdout, plain)
        self.refused("give one of --args and --args-from-input", "run", "echo.c", "--args-from-input", "--args", "a")
        too_many = list(map(str, encoded(["w"] * 64)))
        self.hippo_c("run", "echo.c", "--args-from-input", "--input", *too_many, code=2)

    def test_the_search_changes_words(self) -> None:
        self.write("commands.c", COMMANDS)
        ran = self.hippo_c(
            "explore",
            "commands.c",
            "--runs",
            "6000",
            "--crashes",
            "1",
            "--corpus",
            "corpus",
            "--args",
            "add",
            "5",
            code=1,
        )
        lines = {COMMANDS[: COMMANDS.index(text)].count("\n") + 1 for text in ("// no flush", "s.count /= 2")}
        self.assertEqual({int(line) for line in re.findall(r"commands\.c:(\d+):\d+: warning", ran.stdout)}, lines)
        for again in re.findall(r"see it again: hippo-c (.*)", ran.stdout):
            self.assertIn("--args", again)
            self.assertRegex(again, r"\b(clear|halve)\b")
            self.assertRegex(self.hippo_c(*again.split(" "), code=1).stdout, r"commands\.c:\d+:\d+: warning")
        self.assertIn("hippo-c repair commands.c --args-from-input --inputs corpus", ran.stdout)
        repaired = self.hippo_c(
            "repair", "commands.c", "--args-from-input", "--inputs", "corpus", "-o", "r.ll", code=0
        ).stdout
        self.assertNotRegex(repaired, r"reports? before, [1-9]")

    def test_words_that_main_does_not_use_are_refused(self) -> None:
        self.write("a.c", "int main(void) { return 0; }\n")
        self.refused("--args: main does not use its parameters", "explore", "a.c", "--runs", "10", "--args", "add")


if __name__ == "__main__":
    unittest.main()
