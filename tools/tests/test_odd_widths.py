"""Integers of widths that C seldom has: each operation, lowered, prints what a build of the same text prints."""
from __future__ import annotations

import os
import subprocess
import unittest

from clang_case import HIPPO, TOOLS, ClangCase

WIDTHS = (3, 5, 7, 13, 24, 31, 33, 47, 60, 63)
# `%c` is 1 or 2, and `%d` is odd and not negative, so that no operation shifts too far, divides by zero or overflows in a division.
BINARY = (
    "add iW %x, %y",
    "sub iW %x, %y",
    "mul iW %x, %y",
    "and iW %x, %y",
    "or iW %x, %y",
    "xor iW %x, -1",
    "shl iW %x, %c",
    "lshr iW %x, %c",
    "ashr iW %x, %c",
    "udiv iW %x, %d",
    "urem iW %x, %d",
    "sdiv iW %x, %d",
    "srem iW %x, %d",
    "select i1 %less, iW %x, iW %y",
    "call iW @llvm.smax.iW(iW %x, iW %y)",
    "call iW @llvm.umin.iW(iW %x, iW %y)",
    "sub iW 0, %x",
)
FUNCTION = """define void @NAME(i64 %a, i64 %b) {
  %x = trunc i64 %a to iW
  %y = trunc i64 %b to iW
  %less = icmp slt iW %x, %y
  %c = select i1 %less, iW 1, iW 2
  %half = lshr iW %y, 1
  %d = or iW %half, 1
  %below = icmp ult iW %x, %y
  %r = OPERATION
  %again = add iW %r, %r
  store iW %again, ptr @kept.W
  %loaded = load iW, ptr @kept.W
  %zero = zext iW %loaded to i64
  %sign = sext iW %r to i64
  call void @print_i64(i64 %zero)
  call void @print_i64(i64 %sign)
  %bits = zext i1 %less to i64
  %more = zext i1 %below to i64
  call void @print_i64(i64 %bits)
  call void @print_i64(i64 %more)
  ret void
}
"""
NUMBERS = (0, 1, -1, 2, 6, -7, 12345, -98765, 0x0123456789ABCDEF, -0x7EDCBA9876543211, 2**63 - 1, -(2**63))
LAYOUT = 'target datalayout = "e-m:e-p270:32:32-p271:32:32-p272:64:64-i64:64-i128:128-f80:128-n8:16:32:64-S128"\n'


def text() -> str:
    """The program: all operations at all widths on two numbers that it reads."""
    functions, calls = [], []
    for width in WIDTHS:
        for number, operation in enumerate(BINARY):
            name = f"w{width}.{number}"
            functions.append(
                FUNCTION.replace("NAME", name)
                .replace("OPERATION", operation)
                .replace("kept.W", f"kept.{width}")
                .replace("iW", f"i{width}")
            )
            calls.append(f"  call void @{name}(i64 %a, i64 %b)\n")
    globals_ = "".join(
        f"@kept.{width} = global i{width} 0, align 8\ndeclare i{width} @llvm.smax.i{width}(i{width}, i{width})\n"
        f"declare i{width} @llvm.umin.i{width}(i{width}, i{width})\n"
        for width in WIDTHS
    )
    main = (
        "define i32 @main() {\n  %a = call i64 @read_i64()\n  %b = call i64 @read_i64()\n"
        + "".join(calls)
        + "  ret i32 0\n}\n"
    )
    return (
        f'{LAYOUT}target triple = "x86_64-pc-linux-gnu"\ndeclare i64 @read_i64()\ndeclare void @print_i64(i64)\n'
        + globals_
        + "".join(functions)
        + main
    )


@unittest.skipUnless(os.access(HIPPO, os.X_OK), "hippo is not built")
class OddWidths(ClangCase):
    """Arithmetic, comparisons, shifts, memory and extensions."""

    def test_each_operation(self) -> None:
        source, lowered, program = (os.path.join(self.folder, name) for name in ("text.ll", "lowered.ll", "program"))
        with open(source, "w", encoding="ascii") as file:
            file.write(text())
        subprocess.run(["clang-19", "-w", "-O0", "-o", program, source, self.externals()], check=True)
        with open(lowered, "w", encoding="ascii") as file:
            subprocess.run([os.path.join(TOOLS, "lower"), source], stdout=file, stderr=subprocess.DEVNULL, check=True)
        for one in NUMBERS:
            for other in NUMBERS[::3]:
                given = [str(one), str(other)]
                native = subprocess.run(
                    [program], input="\n".join(given), capture_output=True, text=True, check=True
                ).stdout
                ran = subprocess.run(
                    [HIPPO, "run", lowered, "--", *given], capture_output=True, text=True, check=True
                ).stdout
                self.assertEqual(native.count("\n"), 4 * len(WIDTHS) * len(BINARY))
                self.assertEqual(ran, native, given)


if __name__ == "__main__":
    unittest.main()
