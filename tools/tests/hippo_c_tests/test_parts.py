"""Parts of a program in a build: what they do before `main` and after it, and what C++ shares between files."""
import os

from .common import TOOLS, Case

INCLUDE = f"-I{TOOLS}"
EXTERNAL = os.path.join(TOOLS, "external_functions.c")

C_PART = """#include <hippo.h>
#include <stdlib.h>
PERSISTENT static long kept;
static long ready;
static void last(void) { print_i64(300 + kept); }
__attribute__((constructor)) static void begin(void) {
  ready = 7;
  atexit(last);
}
__attribute__((destructor)) static void finish(void) { print_i64(400 + ready); }
void put(long v) { kept = v + ready; }
"""
C_DRIVER = """#include <hippo.h>
#include <stdlib.h>
void put(long v);
static void mine(void) { print_i64(200); }
int main(void) {
  atexit(mine);
  put(read_i64());
  print_i64(100);
  return 0;
}
"""

SHARED = """#include <hippo.h>
struct Noted {
  long number;
  explicit Noted(long given) : number(given) { print_i64(number); }
  ~Noted() { print_i64(-number); }
};
inline long shared = 10;
inline Noted &only() {
  static Noted noted(++shared);
  return noted;
}
void put(long v);
"""
CPP_PART = """#include "shared.h"
PERSISTENT static long kept;
static Noted global(1);
void put(long v) {
  static Noted inside(2);
  kept = v + only().number + inside.number + global.number;
  print_i64(kept);
  shared++;
}
"""
CPP_DRIVER = """#include "shared.h"
static Noted of_driver(3);
int main() {
  put(read_i64());
  print_i64(shared + only().number);
  static Noted late(4);
  return 0;
}
"""

SHAPES = """struct Shape {
  virtual long area() const { return 1; }
};
long measure(const Shape &shape);
"""
VIRTUAL_PART = """#include <hippo.h>
#include "shapes.h"
PERSISTENT static long kept;
long measure(const Shape &shape) { return kept = shape.area(); }
"""
VIRTUAL_DRIVER = """#include <hippo.h>
#include "shapes.h"
struct Square : Shape {
  long area() const override { return read_i64(); }
};
int main() {
  Square square;
  print_i64(measure(square));
  return 0;
}
"""


class Parts(Case):
    """Each part prints in a build what the whole program prints."""

    def is_same(self, compiler: str, part: str, driver: str, numbers: str, *more: str) -> list[str]:
        """The lines of a build with the repaired part, which are those of a build of the sources."""
        command = [compiler, "-mclwb", "-w", INCLUDE, "externals.o", "-o"]
        built = self.command("clang-19", "-c", "-mclwb", INCLUDE, "-o", "externals.o", EXTERNAL)
        self.assertEqual(built.returncode, 0, built.stderr)
        self.hippo_c(
            "repair",
            part,
            driver,
            "--for",
            part,
            "-o",
            "part.o",
            "--clflush",
            "--input",
            *numbers.split(),
            *more,
            code=0,
        )
        printed: list[list[str]] = []
        for name, source in (("native", part), ("built", "part.o")):
            built = self.command(*command, name, source, driver)
            self.assertEqual(built.returncode, 0, built.stderr)
            ran = self.command("sh", "-c", f"echo {numbers} | ./{name}")
            self.assertEqual(ran.returncode, 0, ran.stderr)
            printed.append(ran.stdout.split())
        self.assertEqual(printed[0], printed[1])
        return printed[1]

    def test_constructors_and_destructors_of_c(self) -> None:
        """They run, and so do functions of atexit, in their turn among those of the driver."""
        self.write("part.c", C_PART)
        self.write("driver.c", C_DRIVER)
        self.assertEqual(self.is_same("clang-19", "part.c", "driver.c", "5"), ["100", "200", "312", "407"])

    def test_objects_of_cpp(self) -> None:
        """Global objects and static ones are made once and destroyed in their turn; what a header defines is one for both files."""
        self.write("shared.h", SHARED)
        self.write("part.cpp", CPP_PART)
        self.write("driver.cpp", CPP_DRIVER)
        self.assertEqual(
            self.is_same("clang++-19", "part.cpp", "driver.cpp", "5", "--", "-std=c++17")[-5:],
            ["-4", "-11", "-2", "-3", "-1"],
        )

    def test_virtual_functions_on_both_sides_are_refused(self) -> None:
        """The tables of the part have numbers; those of the other file have addresses."""
        self.write("shapes.h", SHAPES)
        self.write("part.cpp", VIRTUAL_PART)
        self.write("driver.cpp", VIRTUAL_DRIVER)
        self.refused(
            "part.cpp and driver.cpp both have virtual functions",
            "repair",
            "part.cpp",
            "driver.cpp",
            "--for",
            "part.cpp",
            "-o",
            "part.o",
            "--input",
            "4",
        )

    def test_an_exported_object_with_virtual_functions_is_refused(self) -> None:
        """Any file of a build could call them."""
        self.write("shapes.h", SHAPES)
        self.write(
            "part.cpp",
            '#include <hippo.h>\n#include "shapes.h"\nPERSISTENT long kept;\nShape shape;\nvoid put(long v) { kept = v; }\n',
        )
        self.write(
            "driver.cpp", "#include <hippo.h>\nvoid put(long v);\nint main() {\n  put(read_i64());\n  return 0;\n}\n"
        )
        self.refused(
            "virtual functions of 'shape'",
            "repair",
            "part.cpp",
            "driver.cpp",
            "--for",
            "part.cpp",
            "-o",
            "part.o",
            "--input",
            "4",
        )

    def test_destructors_of_the_thread_are_refused(self) -> None:
        """No thread of the build would call them."""
        self.write("shared.h", SHARED)
        self.write(
            "part.cpp",
            '#include "shared.h"\nPERSISTENT static long kept;\nstatic thread_local Noted own(1);\nvoid put(long v) { kept = v + own.number; }\n',
        )
        self.write("driver.cpp", '#include "shared.h"\nint main() {\n  put(read_i64());\n  return 0;\n}\n')
        self.refused(
            "a thread_local object of the part has a destructor",
            "repair",
            "--single-thread",
            "part.cpp",
            "driver.cpp",
            "--for",
            "part.cpp",
            "-o",
            "part.o",
            "--input",
            "4",
        )

    def test_two_constructors_of_one_name_are_refused(self) -> None:
        """The part could get the other one."""
        self.write("part.c", C_PART)
        self.write("driver.c", C_DRIVER + "__attribute__((constructor)) static void begin(void) { print_i64(1); }\n")
        self.refused(
            "a constructor or destructor of the name 'begin'",
            "repair",
            "part.c",
            "driver.c",
            "--for",
            "part.c",
            "-o",
            "part.o",
            "--input",
            "4",
        )
