"""What each form that bears on durability becomes in the lowered text: flushes, fences, and what only looks like one.

One text of LLVM's form has all of them, with a number printed after each."""
from __future__ import annotations

import os
import re
import subprocess
import unittest

from clang_case import TOOLS, ClangCase

ADDRESS = "ptr elementtype(i8) @n, ptr elementtype(i8) @n"
IN_MEMORY = f'"=*m,*m,~{{memory}},~{{dirflag}},~{{fpsr}},~{{flags}}"({ADDRESS})'
IN_REGISTER = '"r,~{memory},~{dirflag},~{fpsr},~{flags}"(ptr @n)'
PLAIN = '"~{memory},~{dirflag},~{fpsr},~{flags}"()'
CLWB, CLFLUSHOPT, CLFLUSH = (
    "call void @llvm.x86.clwb(ptr @n)",
    "call void @llvm.x86.clflushopt(ptr @n)",
    "call void @llvm.x86.sse2.clflush(ptr @n)",
)
SFENCE, MFENCE = "call void @llvm.x86.sse.sfence()", "call void @llvm.x86.sse2.mfence()"


def asm(text: str, rest: str = PLAIN) -> str:
    """An `asm` statement."""
    return f'call void asm sideeffect "{text}", {rest}'


# A line of clang's text, and its lines in the lowered text.
FORMS: list[tuple[str, list[str]]] = [
    *(
        (line, [line])
        for line in (
            CLWB,
            CLFLUSHOPT,
            CLFLUSH,
            SFENCE,
            MFENCE,
            "call void @pmem_drain()",
            "call void @pmem_flush(ptr @n, i64 65)",
            "call void @pmem_persist(ptr @n, i64 3)",
            "call void @pm_assert(ptr @n, i64 16)",
        )
    ),
    *(
        (asm(f"{word} $0", IN_MEMORY), [line])
        for word, line in (
            ("clwb", CLWB),
            ("clflushopt", CLFLUSHOPT),
            ("clflush", CLFLUSH),
            (".byte 0x66; clflush", CLFLUSHOPT),
            (".byte 0x66; xsaveopt", CLWB),
            (".byte 0x66\\0A\\09clflush", CLFLUSHOPT),
            ("CLWB", CLWB),
        )
    ),
    *(
        (asm(f"{word} ($0)", IN_REGISTER), [line])
        for word, line in (("clwb", CLWB), ("clflushopt", CLFLUSHOPT), ("clflush", CLFLUSH))
    ),
    (asm("clwb ${0:P}", IN_MEMORY), [CLWB]),
    (asm("clwb ${0:a}", IN_REGISTER), [CLWB]),
    (asm("clwb (${0:q})", IN_REGISTER), [CLWB]),
    (asm("sfence"), [SFENCE]),
    (asm("mfence"), [MFENCE]),
    (asm("\\09sfence\\0A"), [SFENCE]),
    *((asm(text), list[str]()) for text in ("", "lfence", "pause", "nop", "rep; nop")),
    ("call void @llvm.x86.sse2.lfence()", []),
    ("call void @llvm.x86.sse2.pause()", []),
    ("fence seq_cst", []),
    ('fence syncscope("singlethread") seq_cst', []),
    ("store atomic i64 7, ptr @n seq_cst, align 8", ["store i64 7, ptr @n, align 8"]),
    ("store volatile i32 7, ptr @n, align 4", ["store i32 7, ptr @n, align 4"]),
    ("store i64 7, ptr @n, align 8, !nontemporal !0", ["store i64 7, ptr @n, align 8", CLWB]),
    ("store i32 7, ptr @n, align 4, !nontemporal !0", ["store i32 7, ptr @n, align 4", CLWB]),
    (
        "store i64 7, ptr @n, align 4, !nontemporal !0",
        ["store i64 7, ptr @n, align 4", "call void @pmem_flush(ptr @n, i64 8)"],
    ),
    ("store i32 7, ptr @n, align 4", ["store i32 7, ptr @n, align 4"]),
]
TEXT = """target datalayout = "e-m:e-p270:32:32-p271:32:32-p272:64:64-i64:64-i128:128-f80:128-n8:16:32:64-S128"
target triple = "x86_64-pc-linux-gnu"
@n = global [32 x i64] zeroinitializer, section ".pm", align 64
declare void @print_i64(i64)
declare void @pm_assert(ptr, i64)
declare void @pmem_flush(ptr, i64)
declare void @pmem_persist(ptr, i64)
declare void @pmem_drain()
declare void @llvm.x86.clwb(ptr)
declare void @llvm.x86.clflushopt(ptr)
declare void @llvm.x86.sse2.clflush(ptr)
declare void @llvm.x86.sse.sfence()
declare void @llvm.x86.sse2.mfence()
declare void @llvm.x86.sse2.lfence()
declare void @llvm.x86.sse2.pause()
define i32 @main() {
%s
  ret i32 0
}
!0 = !{i32 1}
"""
EXCHANGES = """  %old = atomicrmw add ptr @n, i64 1 seq_cst, align 8
  %both = cmpxchg ptr @n, i64 1, i64 2 seq_cst seq_cst, align 8"""


class Forms(ClangCase):
    """The lines of the lowered text."""

    def lowered(self, body: str, *options: str) -> tuple[str, str]:
        """The lines of `main` in the lowered text, whose global stays persistent, and the notes."""
        path = os.path.join(self.folder, "forms.ll")
        with open(path, "w", encoding="ascii") as file:
            file.write(TEXT % body)
        ran = subprocess.run(
            [os.path.join(TOOLS, "lower"), *options, path], capture_output=True, encoding="latin-1", check=False
        )
        self.assertEqual(ran.returncode, 0, ran.stderr)
        self.assertIn('@n = global [32 x i64] zeroinitializer, section ".pm", align 64\n', ran.stdout)
        return ran.stdout[ran.stdout.index("@main(") :], ran.stderr

    def test_each_form(self) -> None:
        body = "\n".join(f"  {line}\n  call void @print_i64(i64 {number})" for number, (line, _) in enumerate(FORMS))
        text, notes = self.lowered(body, "--single-thread", "--non-temporal")
        parts = re.split(r"  call void @print_i64\(i64 \d+\)\n", text.partition("\n")[2].partition("\n")[2])
        found = [[line.strip() for line in part.splitlines()] for part in parts[:-1]]
        self.assertEqual(len(found), len(FORMS))
        for (line, wanted), lines in zip(FORMS, found):
            with self.subTest(line):
                self.assertEqual(lines, wanted)
        for note in (
            "asm 'lfence' was left out",
            "asm 'pause' was left out",
            "an empty asm statement was left out",
            "volatile was left out",
            "a non-temporal store: a store with a flush after it",
            "atomic accesses: plain ones, as --single-thread allows",
        ):
            self.assertIn(f"note: {note}", notes)

    def test_an_operand_that_is_another_address_is_refused(self) -> None:
        """A flush of the variable that has the address, or of a place beside it, is no flush of the address."""
        in_register_or_memory = IN_REGISTER.replace('"r,', '"rm,')
        for text, rest in (
            ("clwb $0", IN_REGISTER),
            ("clwb $0", in_register_or_memory),
            ("clwb ($0)", IN_MEMORY),
            ("clwb ${0:H}", IN_MEMORY),
            ("clwb 64($0)", IN_REGISTER),
            ("clwb ${0:c}", IN_REGISTER),
            ("clwb ($0, $0)", IN_REGISTER),
            ("clwb $0; sfence", IN_MEMORY),
        ):
            path = os.path.join(self.folder, "refused.ll")
            with open(path, "w", encoding="ascii") as file:
                file.write(TEXT % f"  {asm(text, rest)}")
            ran = subprocess.run(
                [os.path.join(TOOLS, "lower"), path], capture_output=True, encoding="latin-1", check=False
            )
            self.assertEqual((ran.returncode, ran.stdout), (5, ""), text)
            self.assertIn(f"inline assembly '{text}'", ran.stderr)

    def test_atomic_changes_are_no_fences(self) -> None:
        text, _ = self.lowered(EXCHANGES, "--single-thread")
        self.assertEqual(re.findall(r"call void .*|fence", text), [])
        self.assertEqual(len(re.findall(r"\bstore i64 ", text)), 2)


if __name__ == "__main__":
    unittest.main()
