"""The runtime of lowered programs, against the system's C library.

Each program of `runtime/` prints sums of the results of functions. Its native build, which calls the system's library, and
`hippo run` of its lowered text, into which the runtime is linked, must print the same, and so must the lowered text that is
built for the processor. Hippo is out/hippo, or the program that HIPPO_PROGRAM names; without it the tests skip its runs.
"""
import os
import subprocess
import unittest
from unittest import mock

from clang_case import HIPPO, TESTS
from runtime_case import FILES, OUTPUT, POOL, Setting, run


class Runtime(Setting):
    """What a program prints natively, and in hippo with the runtime."""

    def is_same(self, name: str, *options: str) -> None:
        """A program prints the same natively, in hippo at two levels, and built from its lowered text."""
        source = f"{TESTS}/runtime/{name}.c"
        expected = self.output_of(source)
        self.assertTrue(expected)
        for level in ("-O0", "-O2"):
            text = self.lowered(source, level, list(options))
            if os.path.exists(HIPPO):
                self.assertEqual(self.hippo(text), expected, f"{name} {level} in hippo")
        self.assertEqual(self.built(text), expected, f"{name} built")
        if not os.path.exists(HIPPO):
            self.skipTest("hippo is not built, so its runs are left out")

    def test_memory(self) -> None:
        self.is_same("memory")

    def test_strings(self) -> None:
        self.is_same("strings")

    def test_numbers(self) -> None:
        self.is_same("numbers")

    def test_sorting(self) -> None:
        self.is_same("sorting")

    def test_heap(self) -> None:
        self.is_same("heap")

    def test_random(self) -> None:
        self.is_same("random")

    def test_floats(self) -> None:
        self.is_same("floats")

    def test_formats(self) -> None:
        self.is_same("formats")

    def test_fortified(self) -> None:
        self.is_same("fortified", *OUTPUT)

    def test_scans(self) -> None:
        self.is_same("scans")

    def test_threads(self) -> None:
        self.is_same("threads", "--single-thread")

    def test_wide_strings(self) -> None:
        self.is_same("wide_strings")

    def test_paths(self) -> None:
        self.is_same("paths", *FILES, "--pool", "new.a1b2c3=4K")

    def test_calendar(self) -> None:
        with mock.patch.dict(os.environ, TZ="UTC0"):
            self.is_same("calendar")

    def test_output(self) -> None:
        self.is_same("output", *OUTPUT, "--file-calls")

    def test_files(self) -> None:
        self.is_same("files", *FILES)

    @unittest.skipUnless(os.path.exists(HIPPO), "hippo is not built")
    def is_durable(self, name: str, *options: str) -> None:
        """A program prints what the file of its name has, and `hippo check` reports nothing."""
        with open(f"{TESTS}/runtime/{name}.out", encoding="ascii") as file:
            expected = file.read()
        text, trace = self.lowered(f"{TESTS}/runtime/{name}.c", "-O1", list(options)), f"{self.folder}/trace"
        self.assertEqual(self.hippo(text), expected)
        with open(trace, "w", encoding="ascii") as file:
            file.write(run([HIPPO, "record", text], self.folder).stdout)
        done = run([HIPPO, "check", text, trace], self.folder)
        self.assertEqual(done.stderr.strip().splitlines()[-1], "reports 0")

    def test_libpmem(self) -> None:
        self.is_durable("libpmem", *POOL)

    def test_libpmem2(self) -> None:
        self.is_durable("libpmem2", "--file-calls", *POOL)


@unittest.skipUnless(os.path.exists(HIPPO), "hippo is not built")
class SmallPrograms(Setting):
    """Programs of a few lines: how they end, and what a call of the runtime does to the region."""

    def test_abort_and_assert_trap(self) -> None:
        self.assertEqual(self.end_of("#include <stdlib.h>\nint main(void) { abort(); }"), "trap unreachable")
        self.assertEqual(
            self.end_of("#include <assert.h>\nint main(void) { assert(read_i64 == 0); return 0; }"), "trap unreachable"
        )

    def test_a_write_past_a_fortified_object_traps(self) -> None:
        program = (
            '#include <string.h>\nstatic char a[8];\nstatic const char *volatile text = "%s";\n'
            "int main(void) { __builtin___%s, 8); return a[0]; }"
        )
        calls = {
            name: f"{name}_chk({words}"
            for name, words in (
                ("strcpy", "a, text"),
                ("strcat", "a, text"),
                ("strncat", "a, text, 9"),
                ("stpcpy", "a, text"),
                ("memset", "a, 115, strlen(text) + 1"),
                ("memcpy", "a, text, strlen(text) + 1"),
                ("strncpy", "a, text, strlen(text) + 1"),
            )
        }
        for name, call in calls.items():
            self.assertEqual(self.end_of(program % ("sevenxy", call)), "stop 115", name)
            self.assertEqual(self.end_of(program % ("seventyx", call)), "trap unreachable", name)
        program = program.replace(", 8)", ")")
        for call in ('sprintf_chk(a, 0, 8, "%s", text', 'snprintf_chk(a, strlen(text) + 1, 0, 8, "%s", text'):
            self.assertEqual(self.end_of(program % ("sevenxy", call)), "stop 115", call)
            self.assertEqual(self.end_of(program % ("seventyx", call)), "trap unreachable", call)

    def test_exit_in_main_is_a_return(self) -> None:
        program = (
            "#include <stdlib.h>\nstatic void last(void) { print_i64(9); }\n"
            "int main(void) { atexit(last); print_i64(1); exit(3); }"
        )
        self.assertEqual(self.end_of(program), "stop 3")

    def test_exit_and_a_jump_in_a_constructor(self) -> None:
        program = (
            "#include <stdlib.h>\n#include <setjmp.h>\nstatic jmp_buf at;\nstatic int order;\n"
            "__attribute__((destructor)) static void last(void) { print_i64(order); }\n"
            "__attribute__((constructor(200))) static void first(void) { if (setjmp(at) == 0) longjmp(at, 1); order = 7; %s }\n"
            "int main(void) { char volatile kept[2] = {3, 4}; return order + kept[1]; }"
        )
        self.assertEqual(self.end_of(program % ""), "stop 11")
        self.assertEqual(self.end_of(program % "if (order) exit(5);"), "stop 5")
        lowered = self.lowered(self.source(program % "exit(6);"), "-O1", [])
        self.assertEqual(subprocess.run([HIPPO, "run", lowered], capture_output=True, text=True).stdout, "7\n")

    def test_environment(self) -> None:
        program = (
            "#include <stdlib.h>\n#include <string.h>\nint main(int argc, char **argv, char **all) {\n"
            '  const char *one = getenv("ONE"), *two = getenv("TWO");\n'
            '  return getenv("NO") || getenv("ON") ? 99 : atoi(one) + (int)strlen(two) * 10 + !strcmp(all[1], "TWO=\\"a b\\"") * 100;\n}'
        )
        self.assertEqual(self.end_of(program, "--environment", "ONE=3", "--environment", 'TWO="a b"'), "stop 153")

    def test_a_reservation_has_no_bytes(self) -> None:
        program = (
            "#include <sys/mman.h>\nint main(void) { char *a = mmap(0, 4096, PROT_READ, MAP_PRIVATE | MAP_ANONYMOUS, -1, 0); "
            "return read_i64() ? 5 : *a; }"
        )
        lowered = self.lowered(self.source(program), "-O1", ["--file-calls"])
        for number, end in (("1", "stop 5"), ("0", "trap address")):
            done = subprocess.run([HIPPO, "run", lowered, number], capture_output=True, text=True)
            self.assertEqual(done.stderr.strip().splitlines()[-1], end)

    def test_exit_in_a_function_ends_the_run(self) -> None:
        program = (
            "#include <stdlib.h>\n__attribute__((noinline)) static void leave(int n) { exit(n); }\n"
            "int main(void) { leave(3); return 0; }"
        )
        self.assertEqual(self.end_of(program), "stop 3")

    def test_a_jump_without_a_target_traps(self) -> None:
        program = (
            "#include <setjmp.h>\nstatic jmp_buf at;\nstatic int fill(void) { return setjmp(at); }\n"
            "static int other(void) { jmp_buf mine; return setjmp(mine) ? 9 : (longjmp(at, 1), 2); }\n"
            "int main(void) { %s return other(); }"
        )
        self.assertEqual(self.end_of(program % "fill();"), "trap unreachable")
        self.assertEqual(self.end_of(program % ""), "trap unreachable")

    def test_processor(self) -> None:
        program = (
            "#include <cpuid.h>\n#include <string.h>\nint main(void) {\n  unsigned a, b, c, d, name[3];\n"
            '  __cpuid_count(0, 0, a, name[0], name[2], name[1]);\n  if (a < 7 || memcmp(name, "GenuineIntel", 12)) return 1;\n'
            "  __cpuid_count(7, 0, a, b, c, d);\n  if (!(b >> 23 & 1) || !(b >> 24 & 1) || b >> 16 & 1 || c || d) return 2;\n"
            "  __cpuid_count(1, 0, a, b, c, d);\n  return d >> 26 & 1 && d >> 19 & 1 && !(c >> 28 & 1) ? 5 : 3;\n}"
        )
        self.assertEqual(self.end_of(program), "stop 5")

    def test_own_functions_of_libpmem(self) -> None:
        program = (
            "static int flushed;\nvoid pmem_flush(const void *at, size_t size) { flushed += (int)size; _mm_clwb((void *)at); }\n"
            "static void pmem_drain_own(void) { _mm_sfence(); }\nvoid pmem_drain(void) { flushed *= 2; pmem_drain_own(); }\n"
            "PERSISTENT static long kept;\nstatic void (*volatile flush)(const void *, size_t) = pmem_flush;\n"
            "int main(void) { kept = 1; pmem_flush(&kept, 8); flush(&kept, 5); pmem_drain(); return flushed; }"
        )
        self.assertEqual(self.end_of(program), "stop 26")

    def test_second_free_traps(self) -> None:
        program = (
            "#include <stdlib.h>\nint main(void) { void *volatile a = malloc(9), *volatile b = malloc(9); "
            "free(a); free(a); return b == 0; }"
        )
        self.assertEqual(self.end_of(program), "trap unreachable")

    def test_any_second_free_traps(self) -> None:
        """Also where blocks were joined, given away again in another form, or moved, and a free of what is no block."""
        trapping = (
            "free(p); free(q); p = malloc(200); free(q); q = malloc(100);",
            "free(q); free(p); free(q);",
            "free(r); free(r);",
            "free(p); free(q); free(r); free(q);",
            "free(p + 16);",
            "free(p + 1);",
            "free(&p);",
            "free(q); q = realloc(q, 50);",
            "q = realloc(p, 5000); free(p);",
            "p = aligned_alloc(256, 64); free(p); free(p);",
            "free(q); s = malloc(90); free(s); free(s);",
        )
        stopping = (
            "free(p); free(q); free(r);",
            "free(p); p = malloc(100); free(p);",
            "p = realloc(p, 5000); free(p); free(0);",
            "p = aligned_alloc(256, 64); free(p); p = realloc(q, 10); free(p);",
        )
        cases = "".join(f"case {number}: {body} break; " for number, body in enumerate(trapping + stopping))
        lowered = self.lowered(
            self.source(
                "#include <stdlib.h>\nint main(void) { char *p = malloc(100), *q = malloc(100), *r = malloc(100), *s = r; "
                f"r[0] = 1; switch (read_i64()) {{ {cases} }} return s == 0; }}"
            ),
            "-O1",
            [],
        )
        for number, body in enumerate(trapping + stopping):
            done = subprocess.run([HIPPO, "run", lowered, str(number)], capture_output=True, encoding="latin-1")
            self.assertEqual(
                done.stderr.strip().splitlines()[-1], "trap unreachable" if body in trapping else "stop 0", body
            )

    def test_printed_numbers(self) -> None:
        program = (
            '#include <stdio.h>\nint main(void) { printf("%d of %s, %lx\\n", -5, "text", 255l); '
            'fprintf(stderr, "%d", 1); return printf("%03u", 7u); }'
        )
        lowered = self.lowered(self.source(program), "-O1", ["--print-numbers"])
        done = run([HIPPO, "run", lowered], self.folder)
        self.assertEqual(done.stdout, "-5\n255\n7\n")
        self.assertEqual(done.stderr.strip().splitlines()[-1], "stop 3")

    def test_time_from_input(self) -> None:
        program = "#include <time.h>\nint main(void) { print_i64(time(0)); return 0; }"
        lowered = self.lowered(self.source(program), "-O1", ["--time-from-input"])
        self.assertEqual(run([HIPPO, "run", lowered, "77"], self.folder).stdout, "77\n")
        lowered = self.lowered(self.source(program), "-O1", [])
        self.assertEqual(run([HIPPO, "run", lowered], self.folder).stdout, "0\n")

    def test_clone_of_a_copy_flushes_words(self) -> None:
        program = (
            "#include <string.h>\n#include <stdlib.h>\nPERSISTENT static _Alignas(64) char kept[80];\n"
            "int main(void) { char *text = malloc(80); memset(text, 1, 80); strncpy(kept, text, 72); return 0; }"
        )
        lowered = self.lowered(self.source(program), "-O1", [])
        trace, mended = f"{self.folder}/trace", f"{self.folder}/mended.ll"
        with open(trace, "w", encoding="ascii") as file:
            file.write(run([HIPPO, "record", lowered], self.folder).stdout)
        with open(mended, "w", encoding="latin-1") as file:
            file.write(run([HIPPO, "repair", lowered, trace], self.folder).stdout)
        flushes = run([HIPPO, "record", mended], self.folder).stdout.count("FLUSH;")
        self.assertEqual(flushes, 9)


if __name__ == "__main__":
    unittest.main()
