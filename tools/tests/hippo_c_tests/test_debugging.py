"""Native programs that start from a crash image: hippo-c crash --debug."""
import os
import shutil
import unittest

from .common import Case

# `recover` reads through a null pointer where the count is durable and the pointer is not.
TABLE = """#include <hippo.h>
PERSISTENT struct { long count; char far[64]; long *last; } table;
PERSISTENT long items[8];
static void recover(void) {
    if (table.count && *table.last != 7)
        __builtin_trap();
}
int main(void) {
    recover();
    print_i64(table.count);
    items[3] = 7;
    _mm_clwb(&items[3]);
    table.last = &items[3];
    _mm_clwb(&table.last);
    table.count = read_i64();
    _mm_clwb(&table.count);
    _mm_sfence();
    return 0;
}
"""


class Debug(Case):
    """The native program does what hippo's run from the image does."""

    def setUp(self) -> None:
        super().setUp()
        self.write("table.c", TABLE)

    def failing(self) -> list[str]:
        """The words that show a failing image again."""
        ran = self.hippo_c("crash", "table.c", "--input", "5", code=1)
        line = next(line for line in ran.stdout.splitlines() if "see it again: " in line)
        return str(line).partition("see it again: hippo-c ")[2].split(" ")

    def test_the_native_program_fails_as_hippo_says(self) -> None:
        words = self.failing()
        ran = self.hippo_c(*words, "--debug", "one", code=1)
        self.assertIn("written: one, a native program that starts from this image\n", ran.stdout)
        self.assertEqual(
            sorted(os.listdir(self.path("one"))), ["debug.gdb", "image", "load_image.c", "numbers", "program"]
        )
        self.assertEqual(self.read("one/numbers"), "5\n")
        self.assertEqual(os.path.getsize(self.path("one/image")), 192)
        native = self.command("bash", "-c", "one/program <one/numbers")
        self.assertEqual(native.returncode, 139, native.stderr)

    def test_an_image_that_is_sound_runs_to_its_end(self) -> None:
        self.hippo_c("crash", "table.c", "--input", "5", "--entries", "3", "--pick", "--debug", "two", code=0)
        native = self.command("bash", "-c", "two/program <two/numbers")
        self.assertEqual((native.returncode, native.stdout), (0, "0\n"))
        ran = self.hippo_c(
            "crash", "table.c", "--input", "5", "--debug", "all", "--entries", "9", "--pick", "0:1", "1:2", code=0
        )
        self.assertNotIn("warning", ran.stdout)
        native = self.command("bash", "-c", "all/program <all/numbers")
        self.assertEqual((native.returncode, native.stdout), (0, "5\n"))

    @unittest.skipUnless(shutil.which("gdb"), "gdb is not installed")
    def test_gdb_stands_where_the_recovery_fails(self) -> None:
        self.hippo_c(*self.failing(), "--debug", "one", code=1)
        ran = self.command(
            "gdb",
            "-q",
            "-batch",
            "-x",
            "one/debug.gdb",
            "-ex",
            "continue",
            "-ex",
            "bt",
            "-ex",
            "print table.count",
            "one/program",
        )
        self.assertRegex(ran.stdout, r"recover \(\) at .*table\.c:5")
        self.assertRegex(ran.stdout, r"main \(\) at .*table\.c:9")
        self.assertIn("$1 = 5", ran.stdout)

    def test_globals_that_lie_elsewhere_are_said(self) -> None:
        self.write(
            "a.c",
            "#include <hippo.h>\nextern long b;\nPERSISTENT long a = 1;\nint main(void) { a = b; b = 2; return 0; }\n",
        )
        self.write("b.c", "#include <hippo.h>\nPERSISTENT long b __attribute__((aligned(64))) = 3;\n")
        ran = self.hippo_c("crash", "b.c", "a.c", "--entries", "3", "--pick", "--debug", "one")
        self.assertEqual(ran.returncode, 0, ran.stderr)
        self.assertEqual(self.command("one/program").returncode, 0)

    def test_refusals(self) -> None:
        self.refused("--debug needs one image", "crash", "table.c", "--debug", "one")
        self.refused("--debug needs one image", "crash", "table.c", "--rr", "--entries", "3", "--pick")
        self.write("file", "")
        self.refused(
            "--debug file/x: Not a directory",
            "crash",
            "table.c",
            "--input",
            "5",
            "--entries",
            "3",
            "--pick",
            "--debug",
            "file/x",
        )
        self.assertFalse(os.path.exists(self.path("one")))
