"""The native recorder: traces and reports of the engine equal hippo's, byte by byte."""
import os
import subprocess
import unittest.mock

from .common import EXAMPLES, TOOLS, Case

from hippo_c import native, running
from hippo_c.hooked import HOOK
from hippo_c.native import Engine
from hippo_c.program import Program
from hippo_c.trouble import Trouble

EXAMPLE_INPUTS = {"from_c/undo.ll": "from_c/undo.in", "from_c/store.ll": "from_c/store.in"}
INPUTS_IN_WORDS = {"undo_log/account.ll": [30], "two_inputs/account.ll": [1, 2, 3, 4]}
# Each program traps in its own way; the name is that of the trap.
TRAPS = {
    "divzero": "%a = call i64 @read_i64()\n  %b = udiv i64 5, %a\n",
    "divoverflow": "%a = call i64 @read_i64()\n  %c = trunc i64 %a to i8\n  %d = sub i8 %c, 1\n  %b = srem i8 -128, %d\n",
    "shift": "%a = call i64 @read_i64()\n  %c = add i64 %a, 64\n  %b = lshr i64 1, %c\n",
    "address": "store i64 1, ptr getelementptr (i8, ptr @cell, i64 64)\n",
    "misaligned": "store i32 1, ptr getelementptr (i8, ptr @cell, i64 2)\n",
    "stack": "%a = alloca [16777217 x i8]\n",
    "input": "%a = call i64 @read_i64()\n  %b = call i64 @read_i64()\n",
    "depth": "call void @deep(i64 16383)\n  store i64 2, ptr @cell\n  call void @deep(i64 16384)\n",
    "unreachable": "br label %end\nend:\n  unreachable\n",
}
REST = """
define void @deep(i64 %n) {
entry:
  %last = icmp eq i64 %n, 1
  br i1 %last, label %end, label %more
more:
  %less = sub i64 %n, 1
  call void @deep(i64 %less)
  br label %end
end:
  ret void
}
"""
# Forms that clang rarely writes: an i1 in memory, an unaligned access, flushes of volatile memory and of no bytes, a store over two lines.
FORMS = """@bytes = global [200 x i8] [i8 2, {zeros}], section ".pm", align 64
@pointer = global ptr getelementptr ([4 x i16], ptr @numbers, i64 0, i64 2), section ".pm"
@numbers = global [4 x i16] [i16 1, i16 -2, i16 3, i16 4]
declare void @print_i64(i64)
declare void @pm_assert(ptr, i64)
declare void @pmem_flush(ptr, i64)
declare void @pmem_persist(ptr, i64)
declare void @pmem_drain()
declare void @llvm.x86.clwb(ptr)
declare void @llvm.x86.sse2.mfence()
define void @put(ptr %where, i64 %what) {{
entry:
  store i64 %what, ptr %where, align 1
  ret void
}}
define i32 @main() {{
entry:
  %bit = load i1, ptr @bytes
  %wide = zext i1 %bit to i64
  call void @print_i64(i64 %wide)
  %local = alloca {{ i8, i64 }}, align 16
  call void @put(ptr %local, i64 1)
  call void @put(ptr getelementptr (i8, ptr @bytes, i64 61), i64 -2)
  call void @llvm.x86.clwb(ptr %local)
  call void @pmem_persist(ptr @numbers, i64 8)
  call void @pmem_flush(ptr null, i64 0)
  call void @pmem_persist(ptr null, i64 0)
  %element = load ptr, ptr @pointer
  %half = load i16, ptr %element
  store i16 %half, ptr getelementptr (i8, ptr @bytes, i64 100)
  store ptr %local, ptr getelementptr (i8, ptr @bytes, i64 128)
  call void @pmem_flush(ptr getelementptr (i8, ptr @bytes, i64 60), i64 10)
  call void @pm_assert(ptr @bytes, i64 70)
  %sign = sdiv exact i16 %half, -1
  %shifted = shl nuw nsw i16 %sign, 15
  store i16 %shifted, ptr @numbers
  %true = icmp slt i16 %sign, 0
  store i1 %true, ptr getelementptr (i8, ptr @bytes, i64 199)
  call void @llvm.x86.sse2.mfence()
  call void @pm_assert(ptr @bytes, i64 0)
  call void @put(ptr getelementptr (i8, ptr @bytes, i64 64), i64 7)
  %code = zext i16 %half to i32
  ret i32 %code
}}
""".format(
    zeros=", ".join(["i8 0"] * 199)
)


class NativeCase(Case):
    """Tests that compare an engine with hippo."""

    def engine(self, text: str) -> Engine:
        """The engine of a text, which goes into a file."""
        self.write("p.ll", text)
        return Engine(Program(text), self.folder)

    def compare(self, engine: Engine, numbers: list[int], *options: str) -> str:
        """The engine's trace and reports are hippo's; how the run ended."""
        words = ["record", self.path("p.ll"), *options, "--", *map(str, numbers)]
        recorded = self.hippo(*words)
        ended = engine.record(numbers, self.path("n.trace"), *options)
        self.assertEqual(self.read("n.trace"), recorded.stdout, words)
        self.assertEqual(ended.how, running.Ended(0, recorded.stderr).how, words)
        self.write("h.trace", recorded.stdout)
        reports = self.hippo("check", self.path("p.ll"), self.path("h.trace")).stdout
        self.assertEqual("".join(f"{line}\n" for line in engine.check(numbers, *options)), reports, words)
        return ended.how


class Traces(NativeCase):
    """Traces and reports of whole programs."""

    def test_the_examples(self) -> None:
        found = 0
        for folder, _, names in sorted(os.walk(EXAMPLES)):
            for name in sorted(names):
                path = os.path.relpath(os.path.join(folder, name), EXAMPLES)
                if name.endswith(".ll"):
                    plain = path.replace(".repaired", "").replace(".thin", "")
                    given = EXAMPLE_INPUTS.get(plain)
                    numbers = INPUTS_IN_WORDS.get(plain, [])
                    if given:
                        with open(os.path.join(EXAMPLES, given), encoding="ascii") as file:
                            numbers = list(map(int, file.read().split()))
                    with open(os.path.join(folder, name), encoding="latin-1") as file:
                        self.assertRegex(self.compare(self.engine(file.read()), numbers), r"^stop", path)
                    found += 1
        self.assertGreaterEqual(found, 15)

    def test_forms_that_clang_rarely_writes(self) -> None:
        engine = self.engine(FORMS)
        self.assertEqual(self.compare(engine, []), "stop 3")
        self.assertGreater(len(engine.check([])), 3)
        ran = self.command(*engine.words("run", []))
        self.assertEqual(ran.stdout, self.hippo("run", self.path("p.ll")).stdout)

    def test_each_limit_of_turns(self) -> None:
        engine = self.engine(FORMS)
        endings = [self.compare(engine, [], "--limit", str(limit)) for limit in range(0, 48)]
        self.assertEqual((endings[0], endings[-1]), ("cut", "stop 3"))
        self.assertEqual(sorted(endings), endings, "a higher limit lets the run end")

    def test_each_trap(self) -> None:
        head = '@cell = global [8 x i64] zeroinitializer, section ".pm"\ndeclare i64 @read_i64()\n'
        for trap, body in TRAPS.items():
            with self.subTest(trap=trap):
                after = "" if "unreachable" in body else "  store i64 9, ptr @cell\n  ret i32 0\n"
                engine = self.engine(
                    f"{head}{REST}define i32 @main() {{\nentry:\n  store i64 1, ptr @cell\n  {body}{after}}}\n"
                )
                self.assertEqual(self.compare(engine, [0]), f"trap {trap}")
                for limit in (1, 2, 3, 4, 5, 6):
                    self.compare(engine, [0], "--limit", str(limit))

    def test_a_run_from_an_image_with_another_input_is_one_of_hippo(self) -> None:
        text = f"{EXAMPLES}/undo_log/account.ll"
        self.write("a.trace", self.hippo("record", text, "30").stdout)
        stores = [
            number for number, entry in enumerate(self.read("a.trace").split("\n"), 1) if entry.startswith("STORE")
        ]
        self.write("image.trace", self.hippo("crash", text, self.path("a.trace"), str(stores[-1])).stdout)
        self.assertIn("IMAGE", self.read("image.trace"))
        with open(text, encoding="latin-1") as file:
            engine = self.engine(file.read())
        engine.record([30], self.path("again.trace"), "--image", self.path("image.trace"))
        self.assertEqual(self.read("again.trace"), self.read("image.trace"))
        engine.record([12], self.path("other.trace"), "--image", self.path("image.trace"))
        self.assertNotEqual(self.read("other.trace"), self.read("image.trace"))
        ran = self.hippo("check", text, self.path("other.trace"))
        self.assertEqual(ran.returncode, 0, ran.stderr)
        self.write("changed.trace", self.read("other.trace").replace("INPUT;12", "INPUT;13"))
        self.assertIn("differs", self.hippo("check", text, self.path("changed.trace")).stderr)


# Each run stores far apart, in volatile and in persistent memory, on pages and lines that a later run reads.
KEEPS = """#include <hippo.h>
static long volatile_cells[8192];
PERSISTENT long cells[8192];
int main(void) {
  for (long n; (n = read_i64()) >= 0;) {
    if (volatile_cells[n] || cells[n]) __builtin_trap();
    volatile_cells[n] = cells[n] = 1;
  }
  return 0;
}
"""


class Restoring(NativeCase):
    """Each run begins with the memory of the first one."""

    def test_runs_one_after_another(self) -> None:
        self.write("keeps.c", KEEPS)
        engine = Engine(self.program(self.path("keeps.c")), self.folder)
        lines = ["5 600 4000 -1", "8191 7 600 -1", "0 512 1024 -1", "5 600 4000 8191 0 -1"]
        self.write("given", "".join(f"{line}\n" for line in lines * 3))
        words = [engine.path, "replay", "--input", self.path("given"), "--runs", "1000000", "--crashes", "0"]
        self.assertIn(" trapped=0 ", self.command(*words).stdout)
        self.write("given", "5 5 -1\n")
        self.assertIn(" trapped=1 ", self.command(*words).stdout)


class Building(NativeCase):
    """How engines are built and kept."""

    TEXT = (
        '@cell = global i64 0, section ".pm"\ndefine i32 @main() {\nentry:\n  store i64 1, ptr @cell\n  ret i32 0\n}\n'
    )

    def test_an_engine_is_built_once(self) -> None:
        with unittest.mock.patch.dict(os.environ, {"XDG_CACHE_HOME": self.path("cache")}):
            first = self.engine(self.TEXT)
            self.assertTrue(first.path.startswith(self.path("cache")), first.path)
            with unittest.mock.patch.object(native, "tool", side_effect=AssertionError("built again")):
                self.assertEqual(self.engine(self.TEXT).path, first.path)
            self.assertNotEqual(self.engine(self.TEXT.replace("i64 1", "i64 2")).path, first.path)
            self.assertFalse([name for name in os.listdir(native.cache_folder()) if name.endswith(".part")])

    def test_a_cache_that_cannot_be_written(self) -> None:
        self.write("cache", "a file in place of a folder")
        with unittest.mock.patch.dict(os.environ, {"XDG_CACHE_HOME": self.path("cache")}):
            engine = self.engine(self.TEXT)
            self.assertTrue(engine.path.startswith(self.folder))
            self.assertEqual(self.compare(engine, []), "stop 0")

    def test_names_of_the_engine_are_refused(self) -> None:
        with self.assertRaisesRegex(Trouble, f"the function {HOOK}x: explore needs names"):
            self.engine(self.TEXT.replace("@main", f"@{HOOK}x") + self.TEXT[self.TEXT.index("define") :])

    def test_names_of_the_c_library_are_the_programs_own(self) -> None:
        text = self.TEXT.replace("store i64 1", "call void @memcpy(i64 3)\n  call void @malloc(i64 3)\n  store i64 1")
        for name in ("memcpy", "malloc"):
            text += f"define void @{name}(i64 %a) {{\nentry:\n  store i64 %a, ptr @cell\n  ret void\n}}\n"
        self.assertEqual(self.compare(self.engine(text), []), "stop 0")

    def test_a_broken_engine_is_a_defect(self) -> None:
        engine = self.engine(self.TEXT)
        self.write("broken", '#!/bin/sh\necho "engine: a fault" >&2\nexit 3\n')
        os.chmod(self.path("broken"), 0o755)
        engine.path = self.path("broken")
        with self.assertRaisesRegex(Trouble, "a defect of explore: engine: a fault"):
            engine.check([])

    def test_the_engine_compiles_without_warnings(self) -> None:
        words = [
            *native.COMPILE,
            "-Wall",
            "-Wextra",
            "-Werror",
            "-DVOLATILE_SIZE=8ull",
            "-DREGION_SIZE=64ull",
            "-DEDGE_MASK=1023u",
            "-fsyntax-only",
        ]
        for name in sorted(os.listdir(os.path.join(TOOLS, "explore"))):
            if name.endswith(".c"):
                ran = subprocess.run([*words, os.path.join(TOOLS, "explore", name)], capture_output=True, text=True)
                self.assertEqual((ran.returncode, ran.stderr), (0, ""), name)


if __name__ == "__main__":
    unittest.main()
