#!/usr/bin/env python3
"""What tools/lower refuses: the place in C, the reason, what to do, the exit code, and nothing on standard output."""
import os
import subprocess
import sys
import unittest

from clang_case import TOOLS, ClangCase
from refused_programs import REFUSED


def lower(*words: str) -> tuple[int, str, str]:
    """The exit code of tools/lower, and what it writes."""
    done = subprocess.run([os.path.join(TOOLS, "lower"), *words], capture_output=True, encoding="latin-1", check=False)
    return done.returncode, done.stdout, done.stderr


class Refusals(ClangCase):
    """One test for each refusal."""

    def file(self, text: str, name: str = "bad.c") -> str:
        """A file with a text."""
        path = os.path.join(self.folder, name)
        with open(path, "w", encoding="utf-8") as out:
            out.write(text)
        return path

    def refuse(self, reason: str, advice: str, text: str) -> None:
        """A program is refused for a reason, with what to do."""
        code, out, errors = lower(self.file(f"#include <hippo.h>\n{text}\n"))
        self.assertEqual((code, out), (5, ""), errors)
        self.assertIn(reason, errors.split("\n", maxsplit=1)[0])
        self.assertIn("what to do: ", errors)
        self.assertIn(advice, errors)

    def test_all_at_once(self) -> None:
        """All places are named, grouped by reason, with one line for what to do."""
        code, out, errors = lower(
            self.file(
                """#include <hippo.h>
long long n, m;
long double f(long double x) { return x + 1; }
long long g(void) { return __atomic_load_n(&n, __ATOMIC_ACQUIRE); }
int main(void) {
  print_i64(__atomic_load_n(&m, __ATOMIC_ACQUIRE));
  print_i64((long long)f((long double)g()));
  return 0;
}
"""
            )
        )
        self.assertEqual((code, out), (5, ""))
        lines = errors.splitlines()
        atomic = [line for line in lines if "an atomic access" in line]
        self.assertEqual([line.split("bad.c:")[1].split(":")[0] for line in atomic], ["4", "6"])
        self.assertEqual(lines.index(atomic[1]), lines.index(atomic[0]) + 1)
        self.assertEqual(sum("--single-thread" in line for line in lines), 1)
        self.assertTrue(any("bad.c:3: fadd of long double" in line for line in lines))

    def test_many_places(self) -> None:
        """A reason with many places is shown with some of them and the number of the others; no reason is left out."""
        calls = "\n".join(f"  n += open_pool({number}) + close_{number}();" for number in range(14))
        declared = "\n".join(f"int close_{number}(void);" for number in range(14))
        code, out, errors = lower(
            self.file(f"int open_pool(int);\n{declared}\nint main(void) {{\n  int n = 0;\n{calls}\n  return n;\n}}\n")
        )
        self.assertEqual((code, out), (5, ""))
        self.assertIn("the function @open_pool is not in the program: and 4 more places\n", errors)
        for number in range(14):
            self.assertIn(f"@close_{number} is not", errors)

    def test_notes(self) -> None:
        """Notes name what an assumption allowed, and a call by pointer that can only trap, with its place."""
        code, _, errors = lower(
            "--single-thread",
            self.file(
                """#include <hippo.h>
void (*volatile f)(long long);
_Thread_local long long own;
int main(void) {
  if (__atomic_load_n(&own, __ATOMIC_ACQUIRE)) {
    f(3);
  }
  return 0;
}
"""
            ),
        )
        self.assertEqual(code, 0, errors)
        self.assertIn("note: atomic accesses: plain ones, as --single-thread allows", errors)
        self.assertIn("note: thread-local data: a plain global, as --single-thread allows", errors)
        self.assertIn("bad.c:6: no function whose address is taken has the type of this call", errors)

    def test_an_instruction_without_a_line_has_the_place_of_its_function(self) -> None:
        """clang gives the room of a local variable no line."""
        code, out, errors = lower(
            "-O0", self.file("int main(void) {\n  _Alignas(8192) char part;\n  (void)&part;\n  return 0;\n}\n")
        )
        self.assertEqual((code, out), (5, ""))
        self.assertRegex(errors, r"^lower: \S*bad\.c:1: align 8192: at most 4096: %part = alloca i8")

    def test_notes_are_of_the_own_files(self) -> None:
        """The runtime's calls by pointer get no note."""
        code, _, errors = lower(
            self.file(
                """#include <stdlib.h>
static void leave(int code) { exit(code); }
int main(void) { leave(3); return 0; }
""",
                "leaves.c",
            )
        )
        self.assertEqual(code, 0, errors)
        self.assertNotIn("no function whose address is taken", errors)

    def test_unreached(self) -> None:
        """What main does not reach is not refused."""
        code, out, errors = lower(
            self.file(
                """#include <hippo.h>
long double half(long double x) { return x / 2; }
static _Float16 table[2] = {1, 2};
int first(void) { return table[0] > table[1]; }
int main(void) { return 3; }
"""
            )
        )
        self.assertEqual(code, 0, errors)
        self.assertNotIn("half", out)

    def test_a_definition_that_is_not_persistent(self) -> None:
        """A declaration makes nothing persistent, so a definition in another file without the section is refused."""
        self.file("#include <hippo.h>\nextern PERSISTENT long x;\nint main(void) { x = 1; return 0; }\n", "uses.c")
        files = [os.path.join(self.folder, name) for name in ("uses.c", "defines.c")]
        self.file("long x;\n", "defines.c")
        code, out, errors = lower(*files, "--", "-w")
        self.assertEqual((code, out), (5, ""))
        self.assertEqual(
            errors,
            f"lower: {files[0]}: x is declared persistent, and its definition is not: write PERSISTENT before the definition\n",
        )
        self.file("#include <hippo.h>\nPERSISTENT long x;\n", "defines.c")
        code, out, errors = lower(*files, "--", "-w")
        self.assertEqual(code, 0, errors)
        self.assertIn('@x = global i64 0, section ".pm", align 8\n', out)

    def test_an_assembly_item_behind_a_version_is_refused(self) -> None:
        """The name of a version has no meaning in hippo, but an instruction after it has."""
        for text, code in ((".symver f, f@V", 0), (".symver f, f@V; .globl g", 5)):
            found, _, errors = lower(
                self.file(
                    f'__asm__("{text}");\nint f(void) {{ return 0; }}\nint main(void) {{ return f(); }}\n', "version.c"
                )
            )
            self.assertEqual(found, code, errors)

    def test_a_type_that_is_nested_too_deep(self) -> None:
        """The refusal names the file."""
        depth = 3000
        file = self.file(
            f'@n = global {"[1 x " * depth}i8{"]" * depth} zeroinitializer, section ".pm"\n'
            "define i32 @main() {\n  ret i32 0\n}\n",
            "nested.ll",
        )
        self.assertEqual(lower(file), (5, "", f"lower: {file}: a type or a constant is nested too deep\n"))

    def test_a_place_is_found_from_any_folder(self) -> None:
        """clang names a file that is beside the current folder by a part of its path; the place has the whole path."""
        file = self.file(
            "_Alignas(8192) static char a[8];\nlong double f(long double x) { return x * 2; }\n"
            "int main(void) { return a[1]++ + (f(3.0L) > 1); }\n"
        )
        inner = os.path.join(self.folder, "inner")
        os.makedirs(inner, exist_ok=True)
        done = subprocess.run(
            [os.path.join(TOOLS, "lower"), file], cwd=inner, capture_output=True, encoding="latin-1", check=False
        )
        self.assertEqual((done.returncode, done.stdout), (5, ""))
        places = {
            line.split(": ")[1].rpartition(":")[0] for line in done.stderr.splitlines() if "what to do" not in line
        }
        self.assertEqual(places, {file})

    def test_names_of_pools(self) -> None:
        """The name of a pool has the bytes of the word, whatever they are."""
        name = 'pö\u0142"\\\n'
        code, out, errors = lower(
            "--pool",
            f"{name}=4K",
            self.file(
                "#include <hippo.h>\nvoid *pmem_map_file(const char *, size_t, int, unsigned, size_t *, int *);\n"
                'int main(void) { return pmem_map_file("a", 0, 0, 0, 0, 0) != 0; }\n',
                "pools.c",
            ),
        )
        self.assertEqual(code, 0, errors)
        signed = ", ".join(f"i8 {byte - 256 if byte > 127 else byte}" for byte in [*name.encode(), 0])
        self.assertIn(f"[{signed}]", out)

    def test_names_of_files(self) -> None:
        """The place names the file as the command line does, also with letters that LLVM's text form escapes."""
        for text, place in (
            ("long double half(long double x) { return x / 2; }\nint main(void) { return half(3.0L) > 1; }", 2),
            ("_Alignas(8192) char a[8];\nint main(void) { return a[1]++; }", 2),
        ):
            code, out, errors = lower(self.file(f"#include <hippo.h>\n{text}\n", 'schön "1".c'))
            self.assertEqual((code, out), (5, ""), errors)
            self.assertIn(f'schön "1".c:{place}: ', errors.encode("latin-1").decode("utf-8"))

    def test_an_old_python_is_refused(self) -> None:
        """Python before 3.10 cannot read the modules of the tools."""
        for tool, code in (("lower", 69), ("hippo-c", 2)):
            script = f'import runpy, sys; sys.version_info = (3, 9, 2); runpy.run_path({os.path.join(TOOLS, tool)!r}, run_name="__main__")'
            done = subprocess.run(
                [sys.executable, "-B", "-c", script], capture_output=True, encoding="utf-8", check=False
            )
            self.assertEqual(
                (done.returncode, done.stdout, done.stderr), (code, "", f"{tool}: it needs Python 3.10 or later\n")
            )

    def test_codes(self) -> None:
        """Exit codes of words, files and tools."""
        good = self.file("int main(void) { return 0; }\n", "good.c")
        self.assertEqual(lower("--no-such-option", good)[0], 1)
        self.assertEqual(lower()[0], 1)
        self.assertEqual(lower("--pool", "x", good)[0], 1)
        self.assertEqual(lower("--heap", "12G", good)[0], 1)
        self.assertEqual(lower(os.path.join(self.folder, "no.c"))[0], 2)
        self.assertEqual(lower(self.folder)[0], 3)
        self.assertEqual(lower(self.file("int main(void) { return", "broken.c"))[0], 5)
        self.assertEqual(lower(self.file("define nothing", "broken.ll"))[0], 5)
        self.assertEqual(lower(good)[0], 0)
        for words in ((), ("--no-such-option", good)):
            self.assertEqual(lower(*words)[2].count("\n"), 1)

    @unittest.skipUnless(os.path.exists("/dev/full"), "there is no /dev/full")
    def test_write_fault(self) -> None:
        """A text that cannot be written ends with one line, and no traceback."""
        good = self.file("#include <hippo.h>\nPERSISTENT long n;\nint main(void) { return 0; }\n", "good.c")
        with open("/dev/full", "w", encoding="latin-1") as full:
            done = subprocess.run(
                [os.path.join(TOOLS, "lower"), good],
                stdout=full,
                stderr=subprocess.PIPE,
                encoding="latin-1",
                check=False,
            )
        self.assertEqual((done.returncode, done.stderr.count("\n")), (4, 1), done.stderr)

    def test_public(self) -> None:
        """The names that other object files may use, and not static, hidden or added ones."""
        names = os.path.join(self.folder, "names")
        code, _, errors = lower(
            "--public",
            names,
            self.file(
                """#include <hippo.h>
#include <string.h>
__attribute__((visibility("hidden"))) void *malloc(unsigned long n) { static char room[64]; return room + n; }
static int helper(int x) { return x + 1; }
long long shared = 5;
int twice(int x) { return helper(x) * 2; }
int main(void) { print_i64(twice((int)shared) + *(char *)malloc(3) + (long long)strlen(malloc(4))); return 0; }
""",
                "names.c",
            ),
        )
        self.assertEqual(code, 0, errors)
        with open(names, encoding="latin-1") as text:
            self.assertEqual(sorted(text.read().split()), ["main", "shared", "twice"])


def add_tests() -> None:
    """A test for each refusal."""
    for name, row in REFUSED.items():
        setattr(Refusals, f"test_{name}", lambda self, row=row: self.refuse(*row))


add_tests()
if __name__ == "__main__":
    unittest.main()
