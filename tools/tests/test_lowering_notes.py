#!/usr/bin/env python3
"""The notes of tools/lower: the page has each of them, and a program shows each of them."""
from __future__ import annotations

import os
import re
import subprocess
import sys
import unittest

from clang_case import TOOLS, TOP, ClangCase

sys.path.insert(0, TOOLS)
from lowering.notes import NOTES  # noqa: E402

PAGE = os.path.join(TOP, "docs", "FROM_C.md")
OPTIONS = [
    "--single-thread",
    "--non-temporal",
    "--array-bound",
    "64",
    "--unaligned",
    "--ignore-output",
    "--trap-unsupported",
    "--pool",
    "a=4096",
]
PROGRAM = r"""#include <hippo.h>
#include <stdlib.h>
#include <time.h>
int puts(const char *);
void *pmem_map_file(const char *, size_t, int, unsigned, size_t *, int *);
PERSISTENT long long n;
_Thread_local long own;
volatile long seen;
__attribute__((section("fast"))) long fast;
__attribute__((weak)) extern long missing;
static void (*volatile target)(int);
__attribute__((constructor)) static void first(void) { print_i64(1); }
__attribute__((destructor)) static void last(void) { print_i64(2); }
static void forms(void) {
  long unset;
  print_i64(unset);
  print_i64(fast++ + own++ + (&missing != 0));
  seen = 1;
  if (seen > 1) target(3);
  for (int i = 1; i < 4; i++) { char a[i]; pm_assert(a, 1); }
  __asm__ volatile("pause");
  __asm__ volatile("" ::: "memory");
  _mm_lfence();
  print_i64(__rdtsc());
  puts("a");
  __atomic_store_n(&own, 1, __ATOMIC_RELEASE);
  _mm_stream_si64(&n, 1);
  char *p = malloc(read_i64());
  pm_assert(p, 1);
  free(p);
  print_i64(pmem_map_file("a", 0, 0, 0, 0, 0) != 0);
  print_i64(time(0) + (getenv("A") != 0));
  time_t now = 0;
  print_i64(localtime(&now)->tm_year);
}
static unsigned processor(void) {
  unsigned a = 1, b, c = 0, d;
  __asm__("cpuid" : "=a"(a), "=b"(b), "=c"(c), "=d"(d) : "0"(a), "2"(c));
  return d;
}
static unsigned long request(void) {
  unsigned long a[6] = {0}, result;
  __asm__ volatile("rolq $3, %%rdi ; rolq $13, %%rdi\n\trolq $61, %%rdi ; rolq $51, %%rdi\n\txchgq %%rbx,%%rbx"
                   : "=d"(result) : "a"(a), "0"(5ul) : "cc", "memory");
  return result;
}
int defined_nowhere(void);
int main(int count, char **words, char **rest) {
  forms();
  if (words[0][0] == 1) return defined_nowhere();
  return (int)request() + (int)processor() + words[count - 1][0] + (rest[0] != 0);
}
"""
# What stands for the words in braces in the notes of this program.
FILLED = {
    "constructors": "first",
    "destructors": "last",
    "undefined": "undef",
    "section": '"fast"',
    "weak": "missing",
    "assembly": "pause",
    "instruction": "lfence",
    "array": "64",
    "heap": "free, malloc",
    "pool": "pmem_map_file",
    "time": "time",
    "zone": "localtime",
    "system": "getenv",
    "unsupported": "defined_nowhere (the function @defined_nowhere is not in the program)",
}


OF_CPP = ("throw", "destroyed")
CPP_PROGRAM = """#include <hippo.h>
struct Table {
  long count;
  constexpr Table() : count(1) {}
  ~Table() { count = 0; }
};
PERSISTENT constinit Table table;
int main() {
  if (table.count != 1) throw 1;
  return 0;
}
"""


class Page(unittest.TestCase):
    """The page against the code."""

    def test_the_table_of_the_page_has_each_note(self) -> None:
        """Its rows are the notes of the code, in their order."""
        with open(PAGE, encoding="utf-8") as text:
            table = text.read().split("| note | what it means |\n|---|---|\n")[1].split("\n\n")[0]
        rows = [re.fullmatch(r"\| `(.*)` \| (.+) \|", line) for line in table.split("\n") if line]
        shown = [re.sub(r"\{([A-Z]+)\}", r"\1", text.replace("{PLACE}", "PLACE ")) for text in NOTES.values()]
        self.assertEqual([row and row[1] for row in rows], shown)

    def test_the_code_says_no_other_note(self) -> None:
        """Each note has a kind of the table, and each kind is said somewhere."""
        said = ""
        for folder, _, names in os.walk(os.path.join(TOOLS, "lowering")):
            for name in sorted(names):
                if name.endswith(".py") and name != "notes.py":
                    with open(os.path.join(folder, name), encoding="utf-8") as text:
                        said += text.read()
        self.assertEqual(said.count("notes.add("), 1)
        self.assertEqual(said.count("note_text("), 1)
        for kind in NOTES:
            self.assertIn(f'"{kind}"', said)


class Notes(ClangCase):
    """A program with the form of each note."""

    def notes(self, text: str, *words: str, name: str = "noted.c", standard: str = "-std=gnu17") -> list[str]:
        """The notes of a program."""
        with open(os.path.join(self.folder, name), "w", encoding="utf-8") as out:
            out.write(text)
        command = [os.path.join(TOOLS, "lower"), *words, name, "--args", "one", "--", "-w", standard]
        done = subprocess.run(command, capture_output=True, encoding="utf-8", cwd=self.folder, check=False)
        self.assertEqual(done.returncode, 0, done.stderr)
        return done.stderr.splitlines()

    def test_a_program_shows_each_note(self) -> None:
        """Each note is on standard error, and no other line is."""
        place = PROGRAM[: PROGRAM.index("target(3)")].count("\n") + 1
        filled = {kind: re.sub(r"\{[A-Z]+\}", FILLED.get(kind, ""), text) for kind, text in NOTES.items()}
        filled["no_function"] = f'noted.c:{place}: {filled["no_function"]}'
        wanted = [
            f"lower: note: {text}"
            for kind, text in filled.items()
            if kind not in ("functions", "nothing_persistent", *OF_CPP)
        ]
        self.assertEqual(
            sorted(self.notes(PROGRAM, *OPTIONS)),
            sorted([*wanted, "lower: note: puts: as --ignore-output or --print-numbers allows"]),
        )

    def test_a_program_shows_each_note_of_cpp(self) -> None:
        """A throw, and a persistent object with a destructor."""
        wanted = [f'lower: note: {NOTES[kind].replace("{NAME}", "table")}' for kind in OF_CPP]
        self.assertEqual(sorted(self.notes(CPP_PROGRAM, name="noted.cpp", standard="-std=c++20")), sorted(wanted))

    def test_nothing_persistent(self) -> None:
        """Without persistent data there is nothing to report, and a note says so."""
        self.assertEqual(
            self.notes("long n;\nint main(void) { return (int)n++; }\n"),
            [f'lower: note: {NOTES["nothing_persistent"]}'],
        )


if __name__ == "__main__":
    unittest.main()
