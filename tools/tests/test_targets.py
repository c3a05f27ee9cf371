#!/usr/bin/env python3
"""Texts in LLVM's form: the layout that tools/lower takes them to have."""
import os
import subprocess
import unittest

from clang_case import HIPPO, TOOLS, ClangCase

LAYOUT = 'target datalayout = "e-m:e-p270:32:32-p271:32:32-p272:64:64-i64:64-i128:128-f80:128-n8:16:32:64-S128"\n'
MAIN = "define i32 @main() {\n  ret i32 0\n}\n"
# LLVM's passes compute bits of an address from an alignment that no global states.
GLOBALS = (
    LAYOUT
    + """target triple = "x86_64-pc-linux-gnu"
@odd = global i8 1
@list = global [3 x i64] [i64 1, i64 2, i64 3]
@more = global i8 1
@kept = global { i32, [5 x i32] } { i32 4, [5 x i32] [i32 5, i32 6, i32 7, i32 8, i32 9] }, section ".pm"
declare void @print_i64(i64)
define i32 @main() {
  %list = ptrtoint ptr @list to i64
  %kept = ptrtoint ptr @kept to i64
  %low = or i64 %list, 8
  %at = inttoptr i64 %low to ptr
  %second = load i64, ptr %at
  %a = and i64 %list, 15
  %b = and i64 %kept, 15
  store i8 2, ptr @odd
  store i8 2, ptr @more
  call void @print_i64(i64 %second)
  call void @print_i64(i64 %a)
  call void @print_i64(i64 %b)
  ret i32 0
}
"""
)


class Targets(ClangCase):
    """What tools/lower says to texts of several targets."""

    def lower(self, text: str, *words: str, name: str = "text.ll") -> subprocess.CompletedProcess[str]:
        """Lowers a text."""
        path = os.path.join(self.folder, name)
        with open(path, "w", encoding="utf-8") as file:
            file.write(text)
        return subprocess.run(
            [os.path.join(TOOLS, "lower"), path, *words], capture_output=True, encoding="latin-1", check=False
        )

    def is_refused(self, done: subprocess.CompletedProcess[str], reason: str) -> None:
        """The text is refused for its target, by name."""
        self.assertEqual((done.returncode, done.stdout), (5, ""), done.stderr)
        self.assertRegex(done.stderr, rf"lower: \S+: the target {reason} is not that of x86-64 and Linux")

    def test_other_targets_are_refused(self) -> None:
        for triple in (
            "i386-pc-linux-gnu",
            "i686-unknown-linux-gnu",
            "x86_64-pc-linux-gnux32",
            "aarch64-unknown-linux-gnu",
            "x86_64-pc-windows-msvc",
        ):
            self.is_refused(self.lower(f'target triple = "{triple}"\n{MAIN}'), f"triple {triple}")

    def test_other_layouts_are_refused(self) -> None:
        for layout in ("e-m:e-p:32:32-p270:32:32-i128:128-f64:32:64-n8:16:32-S128", "E-m:e-i64:64-n32:64", "e-p:16:16"):
            self.is_refused(self.lower(f'target datalayout = "{layout}"\n{MAIN}'), f"datalayout {layout}")

    def test_m32_is_refused(self) -> None:
        program = "struct s { char c; long long n; };\nint main(void) { return sizeof(struct s); }\n"
        self.is_refused(self.lower(program, "--", "-m32", name="small.c"), "triple i386-pc-linux-gnu")
        self.is_refused(self.lower(program, "--", "-mx32", name="small.c"), "triple x86_64-pc-linux-gnux32")

    def test_texts_of_no_target_and_of_x86_64_are_lowered(self) -> None:
        for target in (
            "",
            'target triple = "x86_64-unknown-linux-gnu"\n',
            'target triple = "x86_64-apple-macosx10.15.0"\n',
            'target triple = "x86_64-pc-linux-gnu"\n' + LAYOUT,
            LAYOUT,
        ):
            done = self.lower(target + MAIN)
            self.assertEqual(done.returncode, 0, done.stderr)

    @unittest.skipUnless(os.access(HIPPO, os.X_OK), "hippo is not built")
    def test_globals_without_an_alignment_have_the_one_that_passes_assume(self) -> None:
        source = os.path.join(self.folder, "source.ll")
        with open(source, "w", encoding="ascii") as file:
            file.write(GLOBALS)
        for passes in ("-O0", "-O2"):
            text = subprocess.run(
                ["opt-19", "-S", passes, source], capture_output=True, encoding="latin-1", check=True
            ).stdout
            done = self.lower(text)
            self.assertEqual(done.returncode, 0, done.stderr)
            lowered = os.path.join(self.folder, "lowered.ll")
            with open(lowered, "w", encoding="latin-1") as file:
                file.write(done.stdout)
            ran = subprocess.run([HIPPO, "run", lowered], capture_output=True, encoding="ascii", check=False)
            self.assertEqual((ran.stdout, ran.stderr), ("2\n0\n0\n", "stop 0\n"), passes)


if __name__ == "__main__":
    unittest.main()
