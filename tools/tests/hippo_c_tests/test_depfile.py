"""The file of dependencies: make and CMake see a change of a header."""
import os
import shutil
import sys
import unittest

from .common import TOOLS, Case

HEADER = "#define VALUE {}\n"
PROGRAM = (
    '#include <hippo.h>\n#include "the $1 header #2.h"\nPERSISTENT long x;\n'
    "int main(void) { x = VALUE; _mm_clwb(&x); _mm_sfence(); return 0; }\n"
)
NAME = "the $1 header #2.h"
MAKEFILE = """HIPPO_C = {python} {tools}/hippo-c
HIPPO_SOURCES = a.c
include {tools}/build/hippo.mk
"""
CMAKE = """cmake_minimum_required(VERSION 3.20)
project(tried C)
set(HIPPO_C {tools}/hippo-c)
include({tools}/build/hippo.cmake)
hippo_repaired(made SOURCES a.c)
add_custom_target(run ALL DEPENDS made_repaired)
"""


class Depfile(Case):
    """What the file has, and what build tools do with it."""

    def setUp(self) -> None:
        """Writes a program with a header."""
        super().setUp()
        self.write("a.c", PROGRAM)
        self.write(NAME, HEADER.format(1))

    def test_all_that_was_read_is_in_it(self) -> None:
        self.write("b.c", "int unused;\n")
        self.write("bytes", "abc")
        self.hippo_c("check", "a.c", "b.c", "--no-coverage", "--pool", "P=4096,bytes", "--depfile", "made.d", code=0)
        rule, *others = self.read("made.d").replace("\\\n", " ").splitlines()
        target, _, names = rule.partition(":")
        self.assertEqual(target, "made")
        for name in ("a.c", "b.c", "bytes", NAME.replace(" ", "\\ ").replace("#", "\\#").replace("$", "$$")):
            self.assertIn(f" {self.folder}/{name}", f"{names} ")
            self.assertIn(f"{self.folder}/{name}:", others)
        self.assertIn(f"{TOOLS}/hippo.h", names.split())
        self.hippo_c("repair", "a.c", "-o", "a.o", "--depfile", "a.o.d", code=0)
        self.assertTrue(self.read("a.o.d").startswith("a.o: \\\n"))

    def test_words_are_refused(self) -> None:
        self.refused("--depfile made: not a name that ends in .d", "check", "a.c", "--depfile", "made")
        self.refused("--depfile a.d: --json writes this file too", "check", "a.c", "--json", "a.d", "--depfile", "a.d")

    @unittest.skipUnless(shutil.which("make"), "make is not installed")
    def test_make(self) -> None:
        self.write("Makefile", MAKEFILE.format(python=sys.executable, tools=TOOLS))
        ran = self.command("make", "hippo-check")
        self.assertEqual(ran.returncode, 0, ran.stdout + ran.stderr)
        self.assertEqual(self.command("make", "-q", "hippo-check").returncode, 0)
        self.write(NAME, HEADER.format(2))
        os.utime(self.path("hippo.checked"), (1, 1))
        self.assertEqual(self.command("make", "-q", "hippo-check").returncode, 1)
        os.unlink(self.path(NAME))
        self.write("a.c", PROGRAM.replace(NAME, "other.h"))
        self.write("other.h", HEADER.format(3))
        ran = self.command("make", "hippo-check")
        self.assertEqual(ran.returncode, 0, ran.stdout + ran.stderr)

    @unittest.skipUnless(
        shutil.which("cmake") and (shutil.which("ninja") or shutil.which("make")), "cmake is not installed"
    )
    def test_cmake(self) -> None:
        # CMake itself reads no `$` and no `#` in such a file.
        self.write("a.c", PROGRAM.replace(NAME, "the header.h"))
        self.write("the header.h", HEADER.format(1))
        self.write("CMakeLists.txt", CMAKE.format(tools=TOOLS))
        for generator, tool in (("Ninja", "ninja"), ("Unix Makefiles", "make")):
            if shutil.which(tool):
                folder = self.path(tool)
                ran = self.command("cmake", "-G", generator, "-S", ".", "-B", folder)
                self.assertEqual(ran.returncode, 0, ran.stdout + ran.stderr)
                self.assertNotIn("CMP0116", ran.stderr)
                self.builds(folder)
                before = os.stat(f"{folder}/made.o").st_mtime_ns
                self.builds(folder)
                self.assertEqual(os.stat(f"{folder}/made.o").st_mtime_ns, before, "nothing has changed")
                os.utime(self.path("the header.h"), None)
                self.builds(folder)
                self.assertGreater(os.stat(f"{folder}/made.o").st_mtime_ns, before, "the header has changed")

    def builds(self, folder: str) -> None:
        """Builds with CMake."""
        ran = self.command("cmake", "--build", folder)
        self.assertEqual(ran.returncode, 0, ran.stdout + ran.stderr)


if __name__ == "__main__":
    unittest.main()
