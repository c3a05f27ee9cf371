"""The command check: answers, warnings and exit codes."""
import json
import os
import re
from typing import Any

from .common import EXAMPLES, RING_INPUT, Case

HEAD = "#include <hippo.h>\n"
ELEVEN_LINES = """\
ring.c:47:3: warning: store of 8 bytes to 'ring.slots[2].text[48]' by 'memcpy' is not durable at the check in ring.c:49 [missing-flush, 36 reports]
   47 |   memcpy(slot->text, text, length);
      |   ^
ring.c:48:3: note: the flush here covers 48 of the 112 bytes of 'ring.slots[2].text'
ring.c:84:7: note: 'put' is called here, by 'main'
ring.c:62:11: warning: store of 8 bytes to 'ring.tail' is not durable at the return of main in ring.c:90 [missing-fence]
   62 |   r->tail += 1;
      |           ^
ring.c:63:3: note: no fence follows this flush
ring.c:86:26: note: 'take' is called here, by 'main'
37 reports in 2 groups; 180 stores to persistent memory, 15 asserts, 35 of 38 lines of C ran
"""


class Check(Case):
    """What check says, and its exit codes."""

    def answer(self, text: str, *words: str, code: int) -> dict[str, Any]:
        """The answer for a program on its one input."""
        self.write("a.c", HEAD + text)
        self.hippo_c("check", "a.c", "--json", "a.json", *words, code=code)
        found: dict[str, Any] = json.loads(self.read("a.json"))["inputs"][0]
        return found

    def test_the_ring_in_eleven_lines(self) -> None:
        self.take("ring_buffer", "ring.c")
        ran = self.hippo_c("check", "ring.c", *RING_INPUT, code=1)
        self.assertEqual(ran.stdout, ELEVEN_LINES)
        self.assertEqual(ran.stderr, "")

    def test_colours_are_asked_for(self) -> None:
        self.take("ring_buffer", "ring.c")
        plain = self.hippo_c("check", "ring.c", "--no-coverage", *RING_INPUT).stdout
        painted = self.hippo_c("check", "ring.c", "--no-coverage", "--color", "always", *RING_INPUT).stdout
        self.assertIn("\x1b[0;1;35mwarning: \x1b[0m", painted)
        self.assertEqual(re.sub(r"\x1b\[[\d;]*m", "", painted), plain)

    def test_nothing_found(self) -> None:
        found = self.answer(
            "PERSISTENT long a;\nint main(void) { a = 1; _mm_clwb(&a); _mm_sfence(); pm_assert(&a, 8);"
            " return 0; }\n",
            code=0,
        )
        self.assertEqual((found["reports"], found["groups"], found["warnings"], found["asserts"]), (0, [], [], 1))

    def test_each_check_has_its_place(self) -> None:
        found = self.answer(
            "PERSISTENT long a, b;\nint main(void) {\n  a = read_i64();\n  pm_assert(&b, 8);\n  pm_assert(&a, 8);\n"
            "  b = 2;\n  return 0;\n}\n",
            "--input",
            "1",
            code=1,
        )
        self.assertEqual(
            [(group["check"]["line"], group["at_end"], group["reports"]) for group in found["groups"]],
            [(6, False, 2), (8, True, 1)],
        )

    def test_warnings_of_what_was_not_checked(self) -> None:
        found = self.answer("long a;\nint main(void) { a = 1; return 0; }\n", code=0)
        self.assertIn("no global is persistent", found["warnings"][0])
        found = self.answer(
            "PERSISTENT long a, b;\nint main(void) { if (read_i64()) a = 1; b = 2; _mm_clwb(&b); _mm_sfence();"
            " return 0; }\n",
            "--input",
            "0",
            code=0,
        )
        self.assertIn("no pm_assert ran", found["warnings"][0])
        self.assertIn("persistent global 'a'", found["warnings"][1])
        self.assertEqual(len(found["warnings"]), 2)

    def test_lines_that_ran(self) -> None:
        found = self.answer(
            "PERSISTENT long a;\nint main(void) {\n  if (read_i64()) {\n    print_i64(1);\n  }\n"
            "  print_i64(2);\n  return 0;\n}\n",
            "--input",
            "0",
            "-O0",
            code=0,
        )
        self.assertEqual(found["lines"], {"ran": 3, "all": 5, "whole": True, "not_run": {"a.c": [[5, 6]]}})

    def test_inputs_by_file_and_by_lines(self) -> None:
        self.take("from_c", "undo.c")
        self.take("from_c", "undo.in")
        by_file = self.hippo_c("check", "undo.c", "--input-file", "undo.in", code=1).stdout
        self.write("two", f'{self.read("undo.in").strip()}\n0\n')
        both = self.hippo_c("check", "undo.c", "--inputs", "two", code=1).stdout
        self.assertIn(by_file, both)
        self.assertIn("input 2: 0\n", both)
        self.assertIn("all inputs together:\nundo.c:34:3: note: 1 of 2 inputs need a fence after this\n", both)

    def test_macros_are_expanded_on_their_lines(self) -> None:
        text = "#define BOTH(v) do { a = (v); b = (v); } while (0)\nPERSISTENT long a, b;\nint main(void) {\n  BOTH(read_i64());\n  return 0;\n}\n"
        groups = self.answer(text, "--input", "1", "2", code=1)["groups"]
        self.assertEqual([(group["store"]["line"], group["store"]["column"]) for group in groups], [(5, 3)] * 2)
        groups = self.answer(text, "--expand-macros", "--input", "1", "2", code=1)["groups"]
        self.assertEqual({group["store"]["line"] for group in groups}, {5})
        self.assertEqual(len({group["store"]["column"] for group in groups}), 2)

    def test_troubles_name_the_step(self) -> None:
        self.write("bad.c", "int main(void) { return missing; }\n")
        self.write("far.ll", "define i32 @main() {\nentry:\n  %p = inttoptr i64 4096 to ptr\n  ret i32 0\n}\n")
        self.write("fault.ll", "define i32 @main() {\nentry:\n  ret i32 %x\n}\n")
        for words, text in (
            (("none.c",), "none.c: no such file"),
            (("bad.c",), "bad.c:1:25: error: use of undeclared identifier"),
            (("far.ll", "--input-file", "none"), "none: No such"),
            (("fault.ll",), "lowering of fault.ll: not lowered:"),
            (("notes.txt",), "no such file"),
        ):
            self.refused(text, "check", *words)

    def test_numbers_out_of_their_limits(self) -> None:
        self.take("ring_buffer", "ring.c")
        self.write("long", "9" * 5000)
        self.write("words", "1 two 3")
        for words, text in (
            (("--limit", "x"), "'x' is not a number from 0 to 1,099,511,627,776"),
            (("--limit", "1099511627777"), "'1099511627777' is not a number from 0 to 1,099,511,627,776"),
            (("--groups", "-1"), "'-1' is not a number from 0"),
            (("--input", "1", "x"), "--input: 'x' is not a number"),
            (("--input", "99999999999999999999"), "the input 99999999999999999999 has more than 64 bits"),
            (("--input", str(2**63)), "has more than 64 bits"),
            (("--input-file", "long"), "has more than 64 bits"),
            (("--input-file", "words"), "words: 'two' is not a number"),
        ):
            self.refused(text, "check", "ring.c", *words)

    def test_files_that_cannot_be_used(self) -> None:
        self.take("ring_buffer", "ring.c")
        with open(self.path("bytes"), "wb") as file:
            file.write(b"\xff\n")
        for words, text in (
            (("--keep", "ring.c"), "--keep ring.c: File exists"),
            (("--keep", "ring.c/x"), "--keep ring.c/x: Not a directory"),
            (("--baseline", "bytes"), "bytes: not UTF-8 text"),
            (("--baseline", "none"), "none: no such baseline"),
            (("--inputs", "bytes"), "bytes: not UTF-8 text"),
            (("--json", "none/a.json"), "none/a.json: No such file"),
        ):
            self.refused(text, "check", "ring.c", *words)

    def test_output_that_cannot_be_written(self) -> None:
        self.take("ring_buffer", "ring.c")
        with open("/dev/full", "w", encoding="ascii") as full:
            self.refused(
                "hippo-c: error: standard output: No space left on device\n",
                "check",
                "ring.c",
                *RING_INPUT,
                stdout=full,
            )

    def test_names_of_files_need_not_be_utf_8(self) -> None:
        name = os.fsdecode(b"\xff.c")
        self.write(name, HEAD + "PERSISTENT long a;\nint main(void) { a = 1; return 0; }\n")
        environment = {**os.environ, "PYTHONIOENCODING": "utf-8:strict"}
        ran = self.hippo_c("check", name, code=1, env=environment, errors="surrogateescape")
        self.assertIn(f"{name}:3:20: warning: store of 8 bytes", ran.stdout)
        self.assertNotIn("Traceback", ran.stderr)

    def test_a_text_without_places_has_sites(self) -> None:
        ran = self.hippo_c("check", os.path.join(EXAMPLES, "key_value_log", "log.ll"), code=1)
        self.assertIn(
            "@take_slot:entry:2: warning: store of 8 bytes to 'head' is not durable at the return of main "
            "[missing-fence",
            ran.stdout,
        )
        self.assertIn("@take_slot:entry:3: note: no fence follows this flush\n", ran.stdout)

    def test_a_cut_run_is_not_whole(self) -> None:
        self.write("a.c", HEAD + "PERSISTENT long a;\nint main(void) { for (;;) a++; }\n")
        ran = self.hippo_c("check", "a.c", "--limit", "1000", code=2)
        self.assertIn("the run was cut after 1,000 turns; --limit N", ran.stdout)
