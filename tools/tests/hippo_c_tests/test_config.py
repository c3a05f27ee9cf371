"""hippo.toml: the words of a project."""
import os

from .common import Case

PROGRAM = """#include <hippo.h>
#include "sizes.h"
PERSISTENT long items[ITEMS];
static void put(long value) {
    items[value % ITEMS] = value;
    _mm_clwb(&items[value % ITEMS]);
}
int main(int argc, char **argv) {
    put(read_i64());
    _mm_sfence();
    return argc > 1 ? argv[1][0] - '0' : 0;
}
"""
CONFIG = """# The words of the project.
[hippo]
input = [5, 6]
sources = ["src/put.c"]
clang = ["-Iinclude", "-I", "more"]
args = ["3"]
O = 2

[check]
check-return = "put"
no-source = true
"""


class Config(Case):
    """A project with its sources in a folder."""

    def setUp(self) -> None:
        super().setUp()
        for name in ("src", "include", "more", "deep/er"):
            os.makedirs(self.path(name))
        self.write("src/put.c", PROGRAM)
        self.write("include/sizes.h", "#include <items.h>\n")
        self.write("more/items.h", "#define ITEMS 4\n")

    def test_a_command_needs_no_words(self) -> None:
        self.write("hippo.toml", CONFIG)
        ran = self.hippo_c("check", code=1)
        self.assertIn(
            "src/put.c:5:26: warning: store of 8 bytes to 'items[1]' is not durable when 'put' returns in src/put.c:7 [",
            ran.stdout,
        )
        self.assertNotIn(" | ", ran.stdout)
        self.assertEqual(self.hippo_c("run", code=0).stderr, "main returned 3\n")

    def test_paths_are_relative_to_its_folder(self) -> None:
        self.write("hippo.toml", CONFIG.replace("input = [5, 6]", 'input-file = "src/numbers"'))
        self.write("src/numbers", "2\n")
        ran = self.hippo_c("check", code=1, cwd=self.path("deep/er"))
        self.assertIn("../../src/put.c:5:26: warning: store of 8 bytes to 'items[2]'", ran.stdout)

    def test_the_command_line_adds_to_it_and_replaces_it(self) -> None:
        self.write("hippo.toml", CONFIG)
        self.assertIn("'items[3]'", self.hippo_c("check", "--input", "7", code=1).stdout)
        self.assertEqual(self.hippo_c("run", "--args", "4", code=0).stderr, "main returned 4\n")
        self.hippo_c("run", "--", "-DNOTHING", "-include", "nothing.h", code=2)
        self.write("other.c", "int main(void) { return 7; }\n")
        self.assertEqual(self.hippo_c("run", "other.c", code=0).stderr, "main returned 7\n")

    def test_refusals_name_the_line(self) -> None:
        for text, reason in (
            ('[hippo]\nsources = "src/put.c"\nno-such = 1\n', "hippo.toml:3: no-such: no such option"),
            (
                '[hippo]\nsources = "src/put.c"\n[run]\ncheck-return = "put"\ngroups = 1\n',
                "hippo.toml:5: groups: no such option",
            ),
            ('[hippo]\nsources = "src/put.c"\n[check]\n\nfix = 1\n', "hippo.toml:5: fix: neither true nor false"),
            ('[hippo]\nsources = "src/put.c"\n[check]\ngroups = [1]\n', "hippo.toml:4: groups: one value, not a list"),
            ("[hippo]\nsources = [true]\n", "hippo.toml:2: sources: neither a text nor a number nor a list of them"),
            (
                '[hippo]\nsources = "src/put.c"\n[chek]\n',
                "hippo.toml:3: [chek]: neither [hippo] nor the table of a command",
            ),
            ("hippo = 1\n", "hippo.toml:1: hippo: not a table"),
            ("[hippo]\nsources = \n", "hippo.toml:2:11: Invalid value"),
            ("[hippo]\n", "hippo.toml: it names no sources"),
            ('[hippo]\nsources = "src/none.c"\n', "src/none.c: no such file"),
        ):
            self.write("hippo.toml", text)
            self.refused(reason, "run" if "[run]" in text else "check")
        os.unlink(self.path("hippo.toml"))
        self.refused("hippo-c check: no FILE is given, and no hippo.toml stands here", "check")
        with open(self.path("hippo.toml"), "wb") as file:
            file.write(b"\xff")
        self.refused("hippo.toml: not UTF-8 text", "check")
