#!/usr/bin/env python3
"""Where hippo traps, a build of the lowered text traps too, and goes to no other code."""
import os
import signal
import subprocess
import unittest

from clang_case import HIPPO, TOOLS, ClangCase

FUNCTIONS = """#include <hippo.h>
static void one(void) { print_i64(1); }
static void two(void) { print_i64(2); }
static void three(void) { print_i64(3); }
static void four(void) { print_i64(4); }
static void five(void) { print_i64(5); }
static void (*table[8])(void) = {one, two, three, four, five, 0, (void (*)(void))7, (void (*)(void))96};
int main(void) { table[read_i64()](); return 0; }
"""
LABELS = """#include <hippo.h>
int main(void) {
  static const void *const labels[8] = {&&one, &&two, &&three, &&four, &&five, 0, (void *)7, (void *)96};
  goto *labels[read_i64()];
one: print_i64(1); return 0;
two: print_i64(2); return 0;
three: print_i64(3); return 0;
four: print_i64(4); return 0;
five: print_i64(5); return 0;
}
"""
CASES = """#include <hippo.h>
int main(void) {
  switch (read_i64()) {
  case 0: print_i64(1); return 0;
  case 1: print_i64(2); return 0;
  case 2: print_i64(3); return 0;
  case 3: print_i64(4); return 0;
  case 4: print_i64(5); return 0;
  default: __builtin_unreachable();
  }
}
"""
DIVISIONS = """#include <hippo.h>
int main(void) {
  __int128 number = (__int128)5 << 70;
  long long form = read_i64();
  __int128 divisor = read_i64();
  switch (form) {
  case 0: print_i64((unsigned __int128)number / (unsigned __int128)divisor); return 0;
  case 1: print_i64((unsigned __int128)number % (unsigned __int128)divisor); return 0;
  case 2: print_i64(-number / divisor); return 0;
  default: print_i64(-number % divisor); return 0;
  }
}
"""


class BuiltTraps(ClangCase):
    """The ends of runs by hippo, and of a build."""

    def lowered(self, text: str, level: str) -> str:
        """The file of a lowered program."""
        source, target = (os.path.join(self.folder, f"program.{end}") for end in ("c", "ll"))
        with open(source, "w", encoding="utf-8") as file:
            file.write(text)
        with open(target, "w", encoding="latin-1") as file:
            done = subprocess.run(
                [os.path.join(TOOLS, "lower"), level, source],
                stdout=file,
                stderr=subprocess.PIPE,
                encoding="latin-1",
                check=False,
            )
        self.assertEqual(done.returncode, 0, done.stderr)
        return target

    def built(self, lowered: str) -> str:
        """The program that docs/FROM_C.md says how to build."""
        program = os.path.join(self.folder, "program")
        subprocess.run(
            [
                "llc-19",
                "--trap-unreachable",
                "-mtriple=x86_64-pc-linux-gnu",
                "-relocation-model=pic",
                "-mattr=+clwb,+clflushopt",
                "-filetype=obj",
                "-o",
                f"{program}.o",
                lowered,
            ],
            check=True,
        )
        subprocess.run(["clang-19", "-o", program, f"{program}.o", self.externals()], check=True)
        return program

    def traps(self, text: str, level: str) -> None:
        """A program with five targets prints the number of the one that the input selects, and traps at all others."""
        lowered = self.lowered(text, level)
        program = self.built(lowered)
        for number in range(8):
            printed, code = (f"{number + 1}\n", 0) if number < 5 else ("", -signal.SIGILL)
            done = subprocess.run([program], input=str(number), capture_output=True, encoding="ascii", check=False)
            self.assertEqual((done.stdout, done.returncode), (printed, code), f"built: {number} {level}")
            if os.access(HIPPO, os.X_OK):
                end = "stop 0" if number < 5 else "trap unreachable"
                done = subprocess.run(
                    [HIPPO, "run", lowered, str(number)], capture_output=True, encoding="ascii", check=False
                )
                self.assertEqual((done.stdout, done.stderr.strip()), (printed, end), f"hippo: {number} {level}")

    def test_a_pointer_to_no_function(self) -> None:
        for level in ("-O0", "-O1", "-O2"):
            self.traps(FUNCTIONS, level)

    def test_a_goto_to_no_label(self) -> None:
        for level in ("-O0", "-O1", "-O2"):
            self.traps(LABELS, level)

    def test_a_wide_division_by_zero(self) -> None:
        """Divisions of 128 bits, each selected by the first number: by 3 they give the quotient, by 0 they trap."""
        wide, negative = 5 << 70, -5 << 70
        wanted = (wide // 3, wide % 3, -(-negative // 3), -(-negative % 3))
        for level in ("-O0", "-O2"):
            lowered = self.lowered(DIVISIONS, level)
            program = self.built(lowered)
            for number, result in enumerate(wanted):
                printed = f"{(result + (1 << 63)) % (1 << 64) - (1 << 63)}\n"
                for divisor, shown, code, end in ((3, printed, 0, "stop 0"), (0, "", -signal.SIGILL, "trap divzero")):
                    numbers = [str(number), str(divisor)]
                    done = subprocess.run(
                        [program], input="\n".join(numbers), capture_output=True, encoding="ascii", check=False
                    )
                    self.assertEqual((done.stdout, done.returncode), (shown, code), f"built: {numbers} {level}")
                    if os.access(HIPPO, os.X_OK):
                        done = subprocess.run(
                            [HIPPO, "run", lowered, *numbers], capture_output=True, encoding="ascii", check=False
                        )
                        self.assertEqual((done.stdout, done.stderr.strip()), (shown, end), f"hippo: {numbers} {level}")

    def test_a_default_that_is_unreachable(self) -> None:
        """At -O0, since clang's passes would drop the check themselves."""
        self.traps(CASES, "-O0")


if __name__ == "__main__":
    unittest.main()
