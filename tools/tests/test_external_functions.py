"""The external functions are the same in the proved table of hip_externs, in tools/lowering, in the C header and its definitions,
and in docs/COMMANDS.md."""
from __future__ import annotations

import re
import subprocess
import sys
import unittest
from pathlib import Path

from clang_case import ClangCase

TOP = Path(__file__).resolve().parents[2]
sys.path.insert(0, str(TOP / "tools"))

from lowering.externs import EXTERNS, Extern, declaration  # noqa: E402

TABLE = TOP / "crates" / "hip_externs" / "src" / "call.rt"
SCALARS = {"NUMBER": "i64", "Scalar::Ptr": "ptr"}
EFFECTS = {"Nothing": "", "Flush": "flush", "Fence": "fence", "FlushAndFence": "flush and fence"}
# What stands in C for a type: of a number the signed and the unsigned ones of 64 bits.
C_TYPES = {"i64": {"long long", "unsigned long long", "size_t"}, "ptr": {"const void *"}, "void": {"void"}}
INTRINSICS = {
    "llvm.x86.clwb": "_mm_clwb",
    "llvm.x86.clflushopt": "_mm_clflushopt",
    "llvm.x86.sse2.clflush": "_mm_clflush",
    "llvm.x86.sse.sfence": "_mm_sfence",
    "llvm.x86.sse2.mfence": "_mm_mfence",
}
# What a program tells `hippo-c explore`: the runtime has these functions, and hippo sees none of them.
MARKS = {"hippo_assume", "hippo_op", "hippo_prints", "hippo_recovered"}
# A program with the definitions, in which each flush prints the offset of its line, and each fence a word.
LOG = """#include <stdio.h>
#include "hippo.h"
static _Alignas(64) char room[320];
static void log_flush(const void *p) { printf(" %ld", (long)((char *)p - room) / 64 * 64); }
#define _mm_clflush(p) log_flush(p)
#define _mm_sfence() printf(" fence")
#include "external_functions.c"
int main(void) {
  pmem_flush(room + 60, 8), puts("");
  pmem_flush(room + 64, 1), puts("");
  pmem_persist(room + 191, 66), puts("");
  pmem_persist(room, 64), puts("");
  pmem_drain(), puts("");
  return 0;
}
"""
PROTOTYPE = re.compile(r"^((?:const )?[a-z][a-z_ ]*?[ *]+)(\w+)\(([^()]*)\)(?=;| \{)", re.M)


def group_in(pattern: str, text: str) -> str:
    """The first group of a pattern that a text has."""
    found = re.search(pattern, text)
    if found is None:
        raise AssertionError(f"{pattern} is not in: {text[:200]}")
    return found[1]


def proved_table(text: str) -> dict[str, Extern]:
    """The rows of the method `row` of ExternCall."""
    body = text[text.index("pub fn row(self)") : text.index("pub fn is_flush")]
    rows: dict[str, Extern] = {}
    for arm in re.split(r"ExternCall::\w+ =>", body)[1:]:
        name = group_in(r'b"([^"]+)"', arm)
        parameters = group_in(r"&\[([^\]]*)\]", arm)
        effect = EFFECTS[group_in(r"LineEffect::(\w+)", arm)]
        result = re.search(r"ret: Some\((\w+)\)", arm)
        listed = tuple(SCALARS[word.strip()] for word in parameters.split(",") if word.strip())
        rows[name] = Extern(SCALARS[result[1]] if result else "void", listed, effect)
    return rows


def calls_in(text: str) -> int:
    """The number of external functions that the constant CALLS has."""
    return int(group_in(r"pub const CALLS: \[ExternCall; (\d+)\]", text))


def prototypes(text: str) -> dict[str, tuple[str, tuple[str, ...]]]:
    """The functions that a C file declares or defines at its left margin: the result and the types of the parameters."""
    found: dict[str, tuple[str, tuple[str, ...]]] = {}
    for result, name, parameters in PROTOTYPE.findall(text):
        types = [re.sub(r"\w+$", "", parameter.strip()).strip() for parameter in parameters.split(",")]
        found[name] = (result.strip(), () if parameters == "void" else tuple(types))
    return found


def fits(row: Extern, prototype: tuple[str, tuple[str, ...]]) -> bool:
    """Whether a prototype in C is that of a row."""
    result, parameters = prototype
    return (
        result in C_TYPES[row.result]
        and len(parameters) == len(row.parameters)
        and all(type_ in C_TYPES[scalar] for type_, scalar in zip(parameters, row.parameters))
    )


def named(text: str, words: str) -> set[str]:
    """The names that a sentence of docs/COMMANDS.md lists after these words."""
    sentence = re.search(rf"{words} (.*?)\.(?=\s|$)", " ".join(text.split()))
    return set(re.findall(r"`([^`]+)`", sentence[1])) if sentence else set()


class Tables(unittest.TestCase):
    """Each text against the proved table."""

    table: dict[str, Extern]

    @classmethod
    def setUpClass(cls) -> None:
        """Reads the proved table."""
        cls.table = proved_table(TABLE.read_text(encoding="utf-8"))

    def test_every_row_of_the_proved_table_is_found(self) -> None:
        self.assertEqual(len(self.table), calls_in(TABLE.read_text(encoding="utf-8")))

    def test_the_lowering_has_the_proved_table(self) -> None:
        self.assertEqual(EXTERNS, self.table)

    def test_the_header_and_the_definitions_have_each_function_and_no_other(self) -> None:
        for name in ("hippo.h", "external_functions.c"):
            text = (TOP / "tools" / name).read_text(encoding="utf-8")
            with self.subTest(name):
                self.assertEqual(prototypes(text).keys() | INTRINSICS.keys(), self.table.keys() | MARKS)

    def test_each_prototype_has_the_types_of_its_row(self) -> None:
        for name in ("hippo.h", "external_functions.c"):
            found = prototypes((TOP / "tools" / name).read_text(encoding="utf-8"))
            for function, prototype in ((function, found[function]) for function in found.keys() - MARKS):
                with self.subTest(name, function=function):
                    self.assertTrue(fits(self.table[function], prototype), prototype)

    def test_the_header_names_the_intrinsics_of_the_table(self) -> None:
        text = (TOP / "tools" / "hippo.h").read_text(encoding="utf-8")
        self.assertEqual(set(re.findall(r"\b_mm_\w+", text)), set(INTRINSICS.values()))

    def test_the_readme_lists_flushes_and_fences(self) -> None:
        text = (TOP / "docs" / "COMMANDS.md").read_text(encoding="utf-8")
        for words, effect in (("Flushes are", "flush"), ("Fences are", "fence")):
            with self.subTest(words):
                self.assertEqual(named(text, words), {name for name, row in self.table.items() if row.effect == effect})


class Definitions(ClangCase):
    """What the definitions for a native build do."""

    def test_flushes_and_fences_of_a_range(self) -> None:
        source, program = (Path(self.folder, name) for name in ("log.c", "log"))
        source.write_text(LOG, encoding="utf-8")
        subprocess.run(["clang-19", "-w", f"-I{TOP}/tools", "-o", program, source], check=True)
        ran = subprocess.run([program], stdout=subprocess.PIPE, encoding="ascii", check=True)
        self.assertEqual(ran.stdout.splitlines(), [" 0 64", " 64", " 128 192 256 fence", " 0 fence", " fence"])


class Readers(unittest.TestCase):
    """The readers above notice what differs."""

    def test_a_row_is_read_with_its_result_parameters_and_effect(self) -> None:
        text = (
            'pub fn row(self) { ExternCall::Ask => ExternRow { name: b"ask", ret: Some(NUMBER), params: &[Scalar::Ptr, NUMBER],\n'
            'effect: LineEffect::FlushAndFence }, ExternCall::Go => procedure(b"go", &[], LineEffect::Fence) } pub fn is_flush'
        )
        self.assertEqual(
            proved_table(text),
            {"ask": Extern("i64", ("ptr", "i64"), "flush and fence"), "go": Extern("void", (), "fence")},
        )

    def test_prototypes_are_those_at_the_left_margin(self) -> None:
        text = "void go(void);\nlong long ask(const void *from, size_t size) {\n  go();\n}\n"
        self.assertEqual(prototypes(text), {"go": ("void", ()), "ask": ("long long", ("const void *", "size_t"))})

    def test_another_type_or_number_of_parameters_does_not_fit(self) -> None:
        row = Extern("void", ("ptr", "i64"))
        self.assertTrue(fits(row, ("void", ("const void *", "size_t"))))
        for prototype in [
            ("int", ("const void *", "size_t")),
            ("void", ("size_t", "size_t")),
            ("void", ("const void *",)),
            ("void", ("const void *", "int")),
        ]:
            with self.subTest(prototype):
                self.assertFalse(fits(row, prototype))

    def test_a_declaration_has_result_name_and_parameters(self) -> None:
        self.assertEqual(declaration("pmem_flush"), "declare void @pmem_flush(ptr, i64)")


if __name__ == "__main__":
    unittest.main()
