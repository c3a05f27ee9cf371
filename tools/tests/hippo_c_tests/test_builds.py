"""The build of a project: compile_commands.json, objects of `hippo-c cc`, and what is wrong with them."""
from __future__ import annotations

import json
import os
import re
import shlex
import subprocess
import sys
import unittest

from .common import TOOLS, Case, built_program

MAKEFILE = """CC = {python} -B {tools}/hippo-c cc
CFLAGS = -O2 -Wall -MMD -DSLOTS=4 -Iinclude -I{tools} -mclwb
program: main.o libstore.a
\t$(CC) -o $@ $^ externals.o
libstore.a: src/store.o src/other.o
\tar rc $@ $^
%.o: %.c
\t$(CC) $(CFLAGS) -c -o $@ $<
"""
STORE = """#include "store.h"
PERSISTENT struct { long slots[SLOTS]; } store;
void put(long at, long value) {
  store.slots[at] = value;
}
"""
OTHER = """#include "store.h"
long other(void) { return MORE; }
"""
MAIN = """#include "store.h"
int main(void) {
  put(2, other());
  return 0;
}
"""
HEADER = """#include <hippo.h>
#ifndef MORE
#define MORE 7
#endif
void put(long at, long value);
long other(void);
"""
REPORT = (
    "src/store.c:4:19: warning: store of 8 bytes to 'store.slots[2]' is not durable at the return of main in main.c:4"
)


class Project(Case):
    """A project of three files, one of which has an argument of its own."""

    def setUp(self) -> None:
        """Writes the sources."""
        super().setUp()
        for name in ("src", "include", "build"):
            os.makedirs(self.path(name))
        for name, text in (
            ("src/store.c", STORE),
            ("src/other.c", OTHER),
            ("main.c", MAIN),
            ("include/store.h", HEADER),
        ):
            self.write(name, text)

    def commands(self, *entries: dict[str, object]) -> None:
        """Writes the list of a build; without entries, that of the three files, of which the first has an argument of its own."""
        words = ["cc", "-I../include", "-DSLOTS=4", "-O2", "-c"]
        given = entries or (
            {
                "directory": self.path("build"),
                "file": "../src/other.c",
                "arguments": [*words, "-DMORE=9", "../src/other.c"],
            },
            {"directory": self.path("build"), "file": "../src/store.c", "arguments": [*words, "../src/store.c"]},
            {"directory": self.path("build"), "file": "../main.c", "arguments": [*words, "../main.c"]},
        )
        self.write("build/compile_commands.json", json.dumps(given))


@unittest.skipUnless(built_program(), "hippo is not built")
class Lists(Project):
    """`-p BUILD`."""

    def test_each_file_by_its_own_arguments(self) -> None:
        """The files come from the list, and `--only` chooses among them; a driver has what they share."""
        self.commands()
        self.assertIn(REPORT, self.hippo_c("check", "-p", "build", code=1).stdout)
        self.write(
            "driver.c",
            '#include "store.h"\nint main(void) {\n  print_i64(other() * 100 + MORE * 10 + SLOTS);\n  return 0;\n}\n',
        )
        ran = self.hippo_c("run", "driver.c", "-p", "build/compile_commands.json", "--only", "^src/", code=0)
        self.assertEqual(ran.stdout.split(), ["974"])
        self.write("hippo.toml", '[hippo]\np = "build"\n')
        ran = self.hippo_c("check", code=1, cwd=self.path("src"))
        self.assertIn(REPORT.replace("src/", "").replace("main.c", "../main.c"), ran.stdout)

    def test_the_command_that_shows_a_failure_again(self) -> None:
        """It names the build too, so that each file has its own arguments again."""
        self.commands()
        self.write("src/other.c", OTHER + "#if MORE != 9\n#error not its own arguments\n#endif\n")
        text = MAIN.replace("  put(2", "  if (was_put()) __builtin_trap();\n  put(2")
        self.write("driver.c", text)
        self.write("include/store.h", HEADER + "int was_put(void);\n")
        self.write("src/store.c", STORE + "int was_put(void) { return store.slots[2] != 0; }\n")
        ran = self.hippo_c("crash", "-p", "build", "--only", "^src/", "driver.c", "--sample", "0", code=1)
        again = self.group_in(r"see it again: (hippo-c [^\n]*)", ran.stdout)
        self.assertIn("-pbuild/compile_commands.json", again)
        self.hippo_c(*shlex.split(again)[1:], "--debug", "image", code=1)
        self.assertTrue(os.access(self.path("image/program"), os.X_OK))

    def test_arguments_for_clang_before_the_mark(self) -> None:
        """`-I`, `-D`, `-U` and `-std=` need no `--`."""
        words = "main.c -I include src/store.c -DSLOTS=4 -D MORE=1 -UMORE -std=gnu11 src/other.c".split()
        self.assertIn(REPORT, self.hippo_c("check", *words, code=1).stdout)

    def test_errors_of_two_files_do_not_mix(self) -> None:
        """Clang runs on both at once, and what it says of one stands together."""
        for name in ("a.c", "b.c"):
            self.write(name, "".join(f"int n{number} = x{number};\n" for number in range(19)))
        said = self.hippo_c("check", "a.c", "b.c", code=2).stderr
        files = re.findall(r"^([ab])\.c:\d+:\d+: error:", said, re.M)
        self.assertIn("".join(files), ("a" * 19 + "b" * 19, "b" * 19 + "a" * 19))

    def test_bad_lists(self) -> None:
        """Each is a line, and nothing is written."""
        self.refused("src: this is a folder", "check", "src")
        self.refused("unrecognized arguments: --no-such", "check", "main.c", "--no-such", "src/store.c")
        self.refused("-p build: no compile_commands.json is there", "check", "-p", "build")
        self.write("build/compile_commands.json", '[\n{"file": "a.c"},\n]')
        for said in ("build/compile_commands.json:2: no command with a directory, a file, and its arguments",):
            self.refused(said, "check", "-p", "build")
        self.write("build/compile_commands.json", '[\n{"file": }]')
        self.refused("build/compile_commands.json:2: Expecting value", "check", "-p", "build", "--html", "a.html")
        self.commands({"directory": self.folder, "file": "gone.c", "command": "cc -c gone.c"})
        self.refused("it lists gone.c, which is not there", "check", "-p", "build")
        self.commands()
        self.refused("--only x(: not a regular expression", "check", "-p", "build", "--only", "x(")
        self.refused("--only nothing: it fits none of the 3 files", "check", "-p", "build", "--only", "nothing")
        self.refused("--only chooses among the files of a build", "check", "main.c", "--only", "src")
        self.write("second.c", MAIN)
        self.refused(
            "main is defined in second.c and in main.c: give one of these files", "check", "second.c", "-p", "build"
        )
        self.assertFalse(os.path.exists(self.path("a.html")))


@unittest.skipUnless(built_program(), "hippo is not built")
class Objects(Project):
    """`hippo-c cc` and its objects."""

    def make(self) -> None:
        """Makes the project with the wrapper."""
        self.write("Makefile", MAKEFILE.format(python=sys.executable, tools=TOOLS))
        externals = ["clang-19", "-O1", "-w", "-mclwb", "-mclflushopt", f"-I{TOOLS}", f"{TOOLS}/external_functions.c"]
        subprocess.run([*externals, "-c", "-o", self.path("externals.o")], check=True)
        ran = self.command("make", "program")
        self.assertEqual((ran.returncode, ran.stderr), (0, ""), ran.stdout)

    def test_objects_and_archives(self) -> None:
        """The answer is that of the sources, with names and suggestions; the program itself has no bitcode."""
        self.make()
        self.assertEqual(self.command("./program").returncode, 0)
        self.assertNotIn(".hippo", self.command("llvm-readelf-19", "-S", "program").stdout)
        ran = self.hippo_c("check", "main.o", "libstore.a", "--fix", code=1)
        self.assertIn(REPORT, ran.stdout)
        self.assertIn("    4 |   store.slots[at] = value;", ran.stdout)
        self.assertIn("suggestion: add '_mm_clwb(&store.slots[at]); _mm_sfence();'", ran.stdout)
        self.assertIn("5 of 5 lines of C ran", ran.stdout)
        away = self.hippo_c("check", "../main.o", "../libstore.a", code=1, cwd=self.path("src")).stdout
        self.assertIn(f'{self.folder}/{REPORT.partition(" in ")[0]}', away)

    def test_a_source_that_has_changed(self) -> None:
        """The answer is about the object, and says so; the lines are not shown."""
        self.make()
        self.write("src/store.c", STORE.replace("store.slots[at] = value;", "(void)at, (void)value;"))
        ran = self.hippo_c("check", "main.o", "libstore.a", code=1)
        self.assertIn("src/store.c is not as it was when libstore.a(store.o) was compiled: make that again", ran.stdout)
        self.assertNotIn("(void)at", ran.stdout)

    def test_objects_that_cannot_be_taken(self) -> None:
        """Each is a line, and nothing is written."""
        self.make()
        self.refused(
            "externals.o: it has no bitcode: compile it with CC='hippo-c cc'", "check", "main.o", "externals.o"
        )
        self.write("second.c", MAIN)
        ran = self.hippo_c(
            "check", "second.c", "main.o", "libstore.a", "-Iinclude", "-DSLOTS=4", "--json", "a.json", code=2
        )
        self.assertIn("main is defined in second.c and in main.o", ran.stderr)
        self.assertFalse(os.path.exists(self.path("a.json")))
        self.refused("libstore.a: a damaged archive", "check", self.damaged("libstore.a", 56))
        self.refused("main.o: a damaged object", "check", self.damaged("main.o", 40))

    def damaged(self, name: str, size: int) -> str:
        """Cuts a file, or damages a number in it."""
        with open(self.path(name), "rb") as file:
            content = bytearray(file.read())
        content[size : size + 24] = b"\xff" * 24
        with open(self.path(name), "wb") as file:
            file.write(content)
        return name

    def test_compilers_and_what_they_refuse(self) -> None:
        """The exit code is that of the compiler, and a file that clang refuses is an object without bitcode."""
        wrapper = [sys.executable, f"{TOOLS}/hippo-c", "cc"]
        ran = self.command(*wrapper, "-c", "gone.c")
        self.assertEqual(ran.returncode, 1)
        self.write("odd.c", "#ifdef __clang__\n#error not for clang\n#endif\nint n;\n")
        ran = self.command(*wrapper, "-c", "odd.c", env={**os.environ, "HIPPO_CC": "gcc"})
        self.assertEqual(ran.returncode, 0, ran.stderr)
        self.assertIn("hippo-c cc: odd.o has no bitcode: clang-19 says: odd.c:2:2: error: not for clang", ran.stderr)
        ran = self.command(*wrapper, "-c", "odd.c", env={**os.environ, "HIPPO_CC": "no-such-compiler"})
        self.assertEqual(ran.returncode, 2)
        self.assertIn("no-such-compiler: No such file or directory", ran.stderr)
