"""The command repair: the program that is written, its debug information, and parts of it."""
import os
import re

from .common import RING_INPUT, TOOLS, Case

INCLUDE = f"-I{TOOLS}"
EXTERNAL = os.path.join(TOOLS, "external_functions.c")

TABLE = """#include <hippo.h>
#include <string.h>
struct table { void (*put)(long *, long); void *(*copy)(void *, const void *, size_t); };
PERSISTENT long kept[8];
PERSISTENT long copied[8];
static void fill(long *to, long n) { n++; to[0] = n; }
static void other(long *to, long n) { to[1] = n; }
const struct table tables[2] = {{fill, memcpy}, {other, memmove}};
int main(void) {
  long local[8] = {0};
  int k = (int)read_i64();
  tables[k].put(local, 4);
  tables[k].put(kept, 5);
  tables[k].copy(copied, local, 16);
  tables[k].copy(local, kept, 8);
  print_i64(local[0]);
  return 0;
}
"""


class Repair(Case):
    """Repaired programs."""

    def build(self, *parts: str) -> None:
        """An executable of object files and C files."""
        built = self.command("clang-19", "-mclwb", "-g", INCLUDE, "-o", "built", *parts, EXTERNAL)
        self.assertEqual(built.returncode, 0, built.stderr)

    def run_built(self, text: str) -> str:
        """What the executable prints for an input."""
        return str(self.command("bash", "-c", f'echo "{text}" | ./built').stdout)

    def test_the_text_is_hippos(self) -> None:
        self.take("ring_buffer", "ring.c")
        ran = self.hippo_c("repair", "ring.c", "-o", "ring.ll", "--keep", "kept", *RING_INPUT, code=0)
        self.assertEqual(self.read("ring.ll"), self.hippo("repair", "kept/program.ll", "kept/program.1.trace").stdout)
        self.assertIn("37 reports before, 0 after;", ran.stdout)
        self.assertIn("ring.c:63:3: note: a fence is added after this flush\n", ran.stdout)
        self.assertIn("ring.c:47:3: note: the call of 'memcpy' goes to a clone that flushes what it stores", ran.stdout)
        self.assertIn("added: 0 flushes, 1 fence, 1 hoisted call, ", ran.stdout)
        self.hippo_c("check", "ring.ll", *RING_INPUT, code=0)

    def test_calls_by_pointer(self) -> None:
        self.write("a.c", TABLE)
        ran = self.hippo_c("check", "a.c", "--no-source", "--fix", "--input", "0", code=1)
        self.assertIn(
            "a.c:6:49: warning: store of 8 bytes to 'kept[0]' is not durable at the return of main in a.c:17 [",
            ran.stdout,
        )
        self.assertIn(
            "a.c:13:3: note: 'fill' is called here, by 'main'\na.c:13:3: note: suggestion (by hand: the call is not written by its name): call a copy of 'fill' here",
            ran.stdout,
        )
        self.assertIn("a.c:14:3: warning: store of 8 bytes to 'copied[0]' by 'memcpy' is not durable", ran.stdout)
        ran = self.hippo_c("repair", "a.c", "-o", "a.ll", "--input", "0", code=0)
        for line in (13, 14):
            self.assertIn(
                f"a.c:{line}:3: note: this call by pointer goes to a clone that flushes what it stores, and", ran.stdout
            )
        self.assertIn("clone of a call by pointer: 0 flushes\n", ran.stdout)
        self.assertIn("clone of 'fill': 1 flush\n", ran.stdout)
        self.assertIn("3 reports before, 0 after;", ran.stdout)

    def test_very_many_clones_have_a_reason(self) -> None:
        """Where one call makes very many clones, its note says how many and why, and the clones after the first ones are counted."""
        names = [f"put_{number}" for number in range(40)]
        functions = "".join(
            f"static void {name}(long *to) {{ to[0] = {number}; }}\n" for number, name in enumerate(names)
        )
        end = "#include <hippo.h>\nPERSISTENT static long kept[8];\n" + functions
        main = (
            "int main(void) {{\n  long local[8] = {{0}};\n  int k = (int)read_i64();\n"
            "  {0}(local);\n  {0}(kept);\n  print_i64(local[0] + k);\n  return 0;\n}}\n"
        )
        table = f"static void (*const all[])(long *) = {{{', '.join(names)}}};\n"
        calls = f"static void all(long *to) {{ {' '.join(f'{name}(to);' for name in names)} }}\n"
        for text, called, more, why in (
            (table, "all[k]", 10, "a call by pointer, which may call 40 functions"),
            (calls, "all", 9, "many functions that may store"),
        ):
            self.write("a.c", end + text + main.format(called))
            ran = self.hippo_c("repair", "a.c", "-o", "a.ll", "--input", "7", code=0)
            self.assertIn(f" is added after it; {32 + more} clones in all, since it comes to {why}\n", ran.stdout)
            self.assertEqual(ran.stdout.count("\nclone of "), 32, ran.stdout)
            self.assertIn(f"\n{more} more clones: 9 flushes\n", ran.stdout)

    def test_a_fence_after_a_flush_by_pointer_is_in_the_line_of_the_call(self) -> None:
        self.write(
            "a.c",
            "#include <hippo.h>\nPERSISTENT long a;\nvoid (*volatile flush)(const void *, size_t) = pmem_flush;\n"
            "int main(void) {\n  a = 1;\n  flush(&a, 8);\n  return 0;\n}\n",
        )
        ran = self.hippo_c("check", "a.c", "--no-source", "--fix", code=1)
        self.assertIn("a.c:6:3: note: no fence follows this flush\n", ran.stdout)
        self.assertIn("a.c:6:3: note: suggestion: add 'pmem_drain();' after this flush\n", ran.stdout)

    def test_what_is_added_in_the_library_has_the_place_of_its_caller(self) -> None:
        self.write(
            "a.c",
            "#include <hippo.h>\n#include <string.h>\nPERSISTENT char a[64], b[64];\nint main(void) {\n"
            "  memmove(a, a + read_i64(), 9);\n  memmove(b, b + 1, 9);\n  pmem_drain();\n  return 0;\n}\n",
        )
        ran = self.hippo_c("repair", "a.c", "-o", "a.ll", "--input", "3", code=0)
        self.assertNotIn("hippo-c: note: ", ran.stdout)
        self.assertIn("a.c:5:3: note: ", ran.stdout)

    def test_many_more_flushes_are_said(self) -> None:
        self.write(
            "a.c",
            "#include <hippo.h>\nPERSISTENT long a[64];\nint main(void) {\n  long n = read_i64();\n"
            "  for (long i = 0; i < n; i++) a[i & 63] = i;\n  return 0;\n}\n",
        )
        ran = self.hippo_c("repair", "a.c", "-o", "a.ll", "--input", "300", code=0)
        self.assertIn("note: the repaired run flushes 300 times as often; ", ran.stdout)
        self.assertNotIn("times as often", self.hippo_c("repair", "a.c", "-o", "a.ll", "--input", "9", code=0).stdout)

    def test_flushes_and_fences_are_those_of_the_traces(self) -> None:
        self.take("from_c", "undo.c")
        self.take("from_c", "undo.in")
        ran = self.hippo_c("repair", "undo.c", "-o", "undo.ll", "--keep", "kept", "--input-file", "undo.in", code=0)
        found = re.findall(r"(\d+) flushes before, (\d+) after; (\d+) fences before, (\d+) after", ran.stdout)
        counts = [
            len(re.findall(rf"^(?:{word}|PERSIST)", self.read(f"kept/{name}"), re.M))
            for word in ("FLUSH", "FENCE")
            for name in ("program.1.trace", "repaired.1.trace")
        ]
        self.assertEqual([list(map(int, one)) for one in found], [counts])

    def test_an_object_file_prints_the_same_and_knows_its_lines(self) -> None:
        name = self.take("ring_buffer", "ring.c")
        self.hippo_c("repair", name, "-o", "ring.o", "--clflush", *RING_INPUT, code=0)
        self.build("ring.o")
        printed = self.run_built("12 -5 3 -10 0")
        self.assertEqual(printed.split()[:3], ["40", "48", "56"])
        lines = self.command("llvm-dwarfdump-19", "--debug-line", "ring.o").stdout
        for line in (44, 47, 50, 62, 63):
            self.assertRegex(lines, rf"(?m)^0x[0-9a-f]+ +{line} ")
        verified = self.command("llvm-dwarfdump-19", "--verify", "ring.o")
        self.assertEqual(verified.returncode, 0, verified.stdout)

    def test_inlined_places_are_kept(self) -> None:
        self.write("set.h", "__attribute__((always_inline)) static inline void set(long *p, long v) {\n  *p = v;\n}\n")
        self.write(
            "a.c",
            '#include <hippo.h>\n#include "set.h"\nPERSISTENT long a;\nvoid twice(long v) {\n  set(&a, v);\n}\n'
            "int main(void) {\n  twice(read_i64());\n  return 0;\n}\n",
        )
        self.hippo_c("repair", "a.c", "-o", "a.ll", "-g", "--input", "3", code=0)
        self.command(
            "llc-19",
            "-mattr=+clwb",
            "-filetype=obj",
            "-relocation-model=pic",
            "-mtriple=x86_64-pc-linux-gnu",
            "a.ll",
            "-o",
            "a.o",
        )
        self.build("a.o")
        symbols = self.command("llvm-nm-19", "built").stdout
        start = int(self.group_in(r"(\w+) T twice", symbols), 16)
        found = self.command("llvm-symbolizer-19", "-e", "built", *(hex(start + byte) for byte in range(24))).stdout
        self.assertRegex(found, r"set\n\S*set\.h:2:\d+\ntwice\n\S*a\.c:5:\d+\n")

    def test_a_part_goes_into_a_build_without_its_driver(self) -> None:
        self.write(
            "store.c",
            "#include <hippo.h>\nPERSISTENT static long kept[9];\nlong used = 4;\nextern long factor;\nlong scaled(long);\n"
            "static void set(long i, long v) {\n  kept[i] = v;\n}\nvoid put(long i, long v) {\n  set(i, scaled(v) * factor);\n  used++;\n}\n"
            "long get(long i) { return kept[i]; }\n",
        )
        self.write(
            "driver.c",
            "#include <hippo.h>\nlong factor = 3;\nextern long used;\nlong scaled(long v) { return v + 1; }\n"
            "void put(long i, long v);\nlong get(long i);\n"
            "int main(void) {\n  put(2, read_i64());\n  print_i64(get(2));\n  print_i64(used);\n  return 0;\n}\n",
        )
        self.hippo_c(
            "repair", "store.c", "driver.c", "--for", "store.c", "-o", "store.o", "--clflush", "--input", "5", code=0
        )
        symbols = self.command("llvm-nm-19", "store.o").stdout
        self.assertRegex(symbols, r"T put\n")
        self.assertRegex(symbols, r"U scaled\n")
        self.assertRegex(symbols, r"U factor\n")
        self.assertNotRegex(symbols, r"main")
        self.build("store.o", "driver.c")
        self.assertEqual(self.run_built("5"), "18\n5\n")
        self.assertIn(
            "not one of the files",
            self.hippo_c("repair", "store.c", "driver.c", "--for", "x.c", "-o", "x.o", code=2).stderr,
        )

    def test_thin_and_several_inputs(self) -> None:
        self.take("from_c", "allocator.c")
        ran = self.hippo_c("repair", "allocator.c", "--thin", "-o", "a.ll", code=0)
        self.assertRegex(ran.stdout, r"added: .*, \d+ spared\n24 reports before, 0 after")
        self.take("ring_buffer", "ring.c")
        self.write("inputs", "12 -5 3 -10 0\n3 -3 0\n")
        ran = self.hippo_c("repair", "ring.c", "--inputs", "inputs", "-o", "ring.ll", code=0)
        self.assertRegex(ran.stdout, r"input 1: 37 reports before, 0 after.*\ninput 2: \d+ reports? before, 0 after")

    def test_words_that_do_not_fit(self) -> None:
        self.take("from_c", "log.c")
        self.assertIn("ends in .ll or .o", self.hippo_c("repair", "log.c", "-o", "log", code=2).stderr)
        self.assertEqual(os.listdir(self.folder), ["log.c"])
