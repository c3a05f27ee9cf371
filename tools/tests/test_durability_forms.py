#!/usr/bin/env python3
"""What lowered programs store, flush and fence: the entries of the trace for each form of durability_forms.py, and what check says.

Each form is a function of one program, which a check of the whole memory follows. So a flush or a fence that is lost gives other
entries and one report more, and one that is made up gives one report less."""
from __future__ import annotations

import os
import re
import subprocess
import unittest
from typing import NamedTuple

import durability_forms
from clang_case import HIPPO, TOOLS, ClangCase
from durability_forms import Form

SIZE = 8192
HEAD = """#include <hippo.h>
#include <fcntl.h>
#include <stdatomic.h>
#include <string.h>
#include <sys/mman.h>
#include <sys/uio.h>
#include <unistd.h>
enum { NODRAIN = 1, NONTEMPORAL = 2, TEMPORAL = 4, WC = 8, WB = 16, NOFLUSH = 32 };
int pmem_is_pmem(const void *, size_t), pmem_msync(const void *, size_t), pmem_deep_persist(const void *, size_t);
int pmem_deep_flush(const void *, size_t), pmem_deep_drain(const void *, size_t), pmem_has_hw_drain(void), pmem_has_auto_flush(void);
void *pmem_memcpy(void *, const void *, size_t, unsigned), *pmem_memmove(void *, const void *, size_t, unsigned);
void *pmem_memset(void *, int, size_t, unsigned), *pmem_memset_persist(void *, int, size_t), *pmem_memset_nodrain(void *, int, size_t);
void *pmem_memcpy_persist(void *, const void *, size_t), *pmem_memcpy_nodrain(void *, const void *, size_t);
void *pmem_memmove_persist(void *, const void *, size_t), *pmem_memmove_nodrain(void *, const void *, size_t);
struct pmem2_config;
struct pmem2_source;
struct pmem2_map;
int pmem2_config_new(struct pmem2_config **), pmem2_config_set_required_store_granularity(struct pmem2_config *, int);
int pmem2_source_from_fd(struct pmem2_source **, int), pmem2_deep_flush(struct pmem2_map *, void *, size_t);
int pmem2_map_new(struct pmem2_map **, const struct pmem2_config *, const struct pmem2_source *);
void (*pmem2_get_persist_fn(struct pmem2_map *))(const void *, size_t), (*pmem2_get_flush_fn(struct pmem2_map *))(const void *, size_t);
void (*pmem2_get_drain_fn(struct pmem2_map *))(void);
void *(*pmem2_get_memmove_fn(struct pmem2_map *))(void *, const void *, size_t, unsigned);
void *(*pmem2_get_memcpy_fn(struct pmem2_map *))(void *, const void *, size_t, unsigned);
void *(*pmem2_get_memset_fn(struct pmem2_map *))(void *, int, size_t, unsigned);
PERSISTENT static char marks[1 << 16];
static _Alignas(64) char s[256];
static int file, other, synced, data;
static struct pmem2_map *map;
"""
ARRAY = f"PERSISTENT static _Alignas(4096) long long w[{SIZE // 8}];\n"
POOL = "static long long *w;\n"
OPEN = """  file = open("data.pool", O_RDWR);
  other = dup(file);
  synced = open("data.pool", O_RDWR | O_SYNC);
  data = open("data.pool", O_WRONLY | O_DSYNC);
  struct pmem2_config *config;
  struct pmem2_source *source;
  pmem2_config_new(&config);
  pmem2_config_set_required_store_granularity(config, 1);
  pmem2_source_from_fd(&source, file);
  pmem2_map_new(&map, config, source);
  w = mmap(0, 8192, PROT_READ | PROT_WRITE, MAP_SHARED, file, 0);
"""
# Copies of all lengths, from and to all alignments; the number of each is the length of the assert before it.
COPIES = """static const int lengths[] = {0, 1, 2, 3, 4, 5, 7, 8, 9, 15, 16, 17, 23, 24, 31, 40, 63, 64, 65, 130};
int main(void) {
  for (int i = 0; i < 256; i++) s[i] = (char)(i + 1);
  char *to = (char *)w + 64;
  int number = 0;
  for (int at = 0; at < 10; at++) for (int from = 0; from < 3; from++) for (int k = 0; k < 20; k++) {
    CALL(at + from * 10 + k * 30)
  }
  return 0;
}
"""
CALLS = (
    "memcpy(to + at, s + from, lengths[k]);",
    "memmove(to + at, s + from, lengths[k]);",
    "memset(to + at, from, lengths[k]);",
    "memmove(to + at, to + at + from, lengths[k]);",
    "memmove(to + at + from, to + at, lengths[k]);",
    "pmem_memcpy_persist(to + at, s + from, lengths[k]);",
    "pmem_memmove_nodrain(to + at + from, to + at, lengths[k]);",
    "pmem_memset(to + at, from, lengths[k], NODRAIN);",
)
LENGTHS = (0, 1, 2, 3, 4, 5, 7, 8, 9, 15, 16, 17, 23, 24, 31, 40, 63, 64, 65, 130)


class Recorded(NamedTuple):
    """The entries between the marks of a trace, by the number of the mark, and the kinds of reports, by the number of the form."""

    entries: dict[int, list[str]]
    kinds: dict[int, set[str]]


@unittest.skipUnless(os.access(HIPPO, os.X_OK), "hippo is not built")
class Durability(ClangCase):
    """Programs of many forms."""

    def recorded(self, source: str, level: str, *options: str) -> Recorded:
        """The trace of a program, and what check says of it."""
        path, lowered, trace = (os.path.join(self.folder, f"program.{end}") for end in ("c", "ll", "trace"))
        with open(path, "w", encoding="ascii") as file:
            file.write(source)
        for command, target in (
            ([os.path.join(TOOLS, "lower"), level, *options, path, "--", "-w", "-D_GNU_SOURCE"], lowered),
            ([HIPPO, "record", lowered], trace),
        ):
            with open(target, "w", encoding="latin-1") as file:
                done = subprocess.run(command, stdout=file, stderr=subprocess.PIPE, encoding="latin-1", check=False)
            self.assertEqual(done.returncode, 0, done.stderr)
        done = subprocess.run([HIPPO, "check", lowered, trace], capture_output=True, encoding="ascii", check=True)
        with open(trace, encoding="ascii") as file:
            return Recorded(entries_of(file.read()), kinds_of(done.stdout))

    def compare(self, forms: list[Form], memory: str, start: str, *options: str) -> None:
        """Each form has its entries and its reports, at two levels."""
        functions = "\n".join(
            f"__attribute__((noinline)) static void form_{number}(void) {{ long long local[2] = {{0}}; {form.body} (void)local; }}"
            for number, form in enumerate(forms, 1)
        )
        calls = "\n".join(
            f"  pm_assert(marks, {number}); form_{number}(); pm_assert(w, {SIZE}); pmem_persist(w, {SIZE});"
            for number in range(1, len(forms) + 1)
        )
        body = f"int main(void) {{\n{start}  for (int i = 0; i < 256; i++) s[i] = (char)(i + 1);\n{calls}\n  return 0;\n}}\n"
        for level in ("-O0", "-O2"):
            found = self.recorded(
                HEAD + memory + functions + "\n" + body, level, "--single-thread", "--non-temporal", *options
            )
            for number, form in enumerate(forms, 1):
                with self.subTest(f"{level} {form.body}"):
                    self.assertEqual(in_order(found.entries.get(number, ["no such form"]), form), form.entries)
                    self.assertEqual(found.kinds.get(number, set()), {form.missed} - {""})

    def test_instructions(self) -> None:
        self.compare(durability_forms.instructions(), ARRAY, "")

    def test_accesses(self) -> None:
        self.compare(durability_forms.accesses(), ARRAY, "")

    def test_libpmem(self) -> None:
        self.compare(durability_forms.libpmem(), ARRAY, "")

    def test_files_and_libpmem2(self) -> None:
        self.compare(
            durability_forms.files() + durability_forms.libpmem2(),
            POOL,
            OPEN,
            "--file-calls",
            "--pool",
            f"data.pool={SIZE}",
        )

    def test_a_non_temporal_store_is_no_plain_store(self) -> None:
        """The option adds a flush; without it, the store is refused."""
        source = os.path.join(self.folder, "stream.c")
        with open(source, "w", encoding="ascii") as file:
            file.write(HEAD + ARRAY + "int main(void) { _mm_stream_si64(w, 5); return 0; }\n")
        done = subprocess.run(
            [os.path.join(TOOLS, "lower"), source], capture_output=True, encoding="latin-1", check=False
        )
        self.assertEqual((done.returncode, done.stdout), (5, ""))
        self.assertIn("a non-temporal access", done.stderr)

    def test_copies(self) -> None:
        """A copy stores each byte of its range once: in whole aligned words where the range has them, and else byte by byte."""
        calls = " ".join(
            f"pm_assert(marks, 1 + {place} * 600 + number); {call} pm_assert(w, 1);" for place, call in enumerate(CALLS)
        )
        source = (
            HEAD + ARRAY + COPIES.replace("CALL(at + from * 10 + k * 30)", f"number = at + from * 10 + k * 30; {calls}")
        )
        for level, more in (("-O1", ()), ("-O1", ("--unaligned",))):
            found = self.recorded(source, level, *more).entries
            for place, call in enumerate(CALLS):
                for number in range(600):
                    at, from_, length = number % 10, number // 10 % 3, LENGTHS[number // 30]
                    begin = (
                        64
                        + at
                        + (
                            from_
                            if "at + from," in call.split("to + at, ")[0] + "," and "(to + at + from," in call
                            else 0
                        )
                    )
                    with self.subTest(f"{call} {at} {from_} {length} {more}"):
                        self.check_copy(found[1 + place * 600 + number], begin, length, call)

    def check_copy(self, entries: list[str], begin: int, length: int, call: str) -> None:
        """The entries of a copy to a range, with the flush and the fence of its call."""
        stores = [entry for entry in entries if entry[0] == "S"]
        self.assertEqual(sorted(stores, key=place_of), stores_of(begin, begin + length))
        lines = (begin + length - 1) // 64 - begin // 64 + 1
        flush = [f"F{begin // 64 * 64}" + (f"x{lines}" if lines > 1 else "")] if length and "pmem_" in call else []
        fence = ["N"] if "persist" in call else []
        self.assertEqual(entries[len(stores) :], flush + fence)


def in_order(entries: list[str], form: Form) -> str:
    """The entries of a form. C does not say in which order memmove stores; neighbours among its stores are put in order."""
    if "memmove" in form.body:
        count = next((place for place, entry in enumerate(entries) if entry[0] != "S"), len(entries))
        entries = sorted(entries[:count], key=place_of) + entries[count:]
    return " ".join(entries)


def place_of(entry: str) -> int:
    """The offset in an entry of a store."""
    return int(entry[1:].split(":")[0])


def stores_of(begin: int, end: int) -> list[str]:
    """The stores of a range in order."""
    found = []
    while begin < end:
        step = 8 if begin % 8 == 0 and begin + 8 <= end else 1
        found.append(f"S{begin}:{step}")
        begin += step
    return found


def entries_of(trace: str) -> dict[int, list[str]]:
    """The entries that follow each mark, up to the next assert, in the spelling of durability_forms.py."""
    rows = [line.split(";") for line in trace.splitlines()]
    base = next(int(row[1], 16) for row in rows if row[0] == "ASSERT" and not is_mark(row, rows))
    found: dict[int, list[str]] = {}
    current: list[str] = []
    for row in rows:
        if row[0] == "ASSERT":
            current = found.setdefault(int(row[2], 16), []) if int(row[1], 16) != base else []
        elif row[0] == "FENCE":
            current.append("N")
        elif row[0] in ("STORE", "FLUSH", "PERSIST"):
            current += spelled(row, base)
    return found


def is_mark(row: list[str], rows: list[list[str]]) -> bool:
    """Whether an assert is that of a mark: the first assert is one."""
    return row[1] == next(other for other in rows if other[0] == "ASSERT")[1]


def spelled(row: list[str], base: int) -> list[str]:
    """A store or a flush; what other memory gets, such as the length of a file, is left out, except its fence."""
    offset, size = int(row[1], 16) - base, int(row[-1], 16)
    fence = ["N"] if row[0] == "PERSIST" else []
    if not 0 <= offset < SIZE:
        return fence
    if row[0] == "STORE":
        return [f"S{offset}:{size}"]
    return [f"F{offset}" + (f"x{size // 64}" if size > 64 else ""), *fence]


def kinds_of(reports: str) -> dict[int, set[str]]:
    """The kinds of the reports on stores of each form."""
    found: dict[int, set[str]] = {}
    for kind, path in re.findall(r"^report (\w+) .* path (.*)$", reports, re.M):
        if form := re.search(r"@form_(\d+):", path):
            found.setdefault(int(form[1]), set()).add(kind)
    return found


if __name__ == "__main__":
    unittest.main()
