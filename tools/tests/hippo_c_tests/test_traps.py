"""The command run: where a program traps, how it ends, and what an interrupt leaves."""
import json
import os
import signal
import subprocess
import sys
import time

from .common import LONG, TOOLS, Case

HEAD = "#include <hippo.h>\n"


class Traps(Case):
    """The place of each kind of trap, by C lines."""

    def trapped(self, text: str, kind: str, line: int, *numbers: str, calls: tuple[int, ...] = ()) -> None:
        """A run of a program traps at a line, with its calls at these lines."""
        self.write("a.c", HEAD + text)
        ran = self.hippo_c("run", "a.c", "-O0", "--no-source", "--input", *numbers, code=2)
        self.ran = ran
        self.assertRegex(ran.stderr, rf"^a\.c:{line}:\d+: error: the run trapped: .* \[{kind}\]")
        for call in calls:
            self.assertIn(f"a.c:{call}:", ran.stderr)

    def test_arithmetic(self) -> None:
        text = "long f(long a, long b) {\n  long c = a / 3;\n  return c + %s;\n}\nint main(void) {\n  f(6, 1);\n  return (int)f(read_i64(), read_i64());\n}\n"
        self.trapped(text % "a / b", "divzero", 4, "5", "0", calls=(8,))
        self.trapped(text % "a % b", "divoverflow", 4, str(-(2**63)), "-1", calls=(8,))

    def test_memory(self) -> None:
        text = "PERSISTENT long a[4];\nvoid put(long *p) {\n  *p = 1;\n}\nint main(void) {\n  put(a);\n  put(%s);\n  return 0;\n}\n"
        self.trapped(text % "(long *)0", "address", 4, calls=(8,))
        self.assertIn("an access outside the memory of the program [", self.ran.stderr)
        self.trapped(text % "(long *)((char *)a + 1)", "misaligned", 4, calls=(8,))
        for range_ in ("(void *)8, 1", "&range, 4"):
            self.trapped(
                f"int main(void) {{\n  long range = 1;\n  pm_assert({range_});\n  return (int)range;\n}}\n",
                "address",
                4,
            )
            self.assertIn("the run trapped: a pm_assert of memory that is not persistent [", self.ran.stderr)

    def test_ends_of_what_there_is(self) -> None:
        self.trapped("int main(void) {\n  read_i64();\n  return (int)read_i64();\n}\n", "input", 4, "1")
        self.trapped(
            "int main(void) {\n  if (read_i64() > 2)\n    __builtin_trap();\n  return 0;\n}\n", "unreachable", 4, "3"
        )
        self.trapped(
            "long deep(long n) {\n  return n ? deep(n + 1) + 1 : 0;\n}\nint main(void) {\n  return (int)deep(read_i64());\n}\n",
            "depth",
            3,
            "1",
        )
        self.trapped(
            "long deep(long n) {\n  char a[8192];\n  a[n & 63] = 1;\n  return n ? deep(n + 1) + a[3] : 0;\n}\n"
            "int main(void) {\n  return (int)deep(read_i64());\n}\n",
            "stack",
            2,
            "1",
        )

    def test_what_unreachable_means(self) -> None:
        self.trapped(
            "PERSISTENT long (*f)(long);\nint main(void) {\n  return (int)f(read_i64());\n}\n", "unreachable", 4, "1"
        )
        self.assertIn("a call by pointer to no function of the call's type [", self.ran.stderr)
        self.trapped(
            "static long sum(long a, long b) {\n  return a + b;\n}\ntypedef long (*one)(long);\none volatile f = (one)sum;\n"
            "static long use(long a) {\n  return f(a);\n}\nint main(void) {\n  return (int)use(read_i64());\n}\n",
            "unreachable",
            8,
            "1",
            calls=(11,),
        )
        self.assertIn("a call by pointer to no function of the call's type [", self.ran.stderr)
        self.trapped(
            "int main(void) {\n  static void *to[2] = {&&end};\n  goto *to[read_i64()];\nend:\n  return 0;\n}\n",
            "unreachable",
            2,
            "1",
        )
        self.assertIn("a goto to an address that is no label of the function [", self.ran.stderr)
        self.trapped(
            "void longjmp(void *, int);\nint setjmp(void *);\nstatic long at[25];\nstatic int fill(void) {\n  return setjmp(at);\n}\n"
            "int main(void) {\n  fill();\n  longjmp(at, 1);\n  return 0;\n}\n",
            "unreachable",
            8,
        )
        self.assertIn("a longjmp to a function that has returned [", self.ran.stderr)

    def test_the_check_of_exit_has_the_place_of_its_call(self) -> None:
        self.write(
            "a.c",
            HEAD + "void exit(int);\nPERSISTENT long a;\nstatic void fail(void) {\n  a = 1;\n  exit(3);\n}\n"
            "int main(void) {\n  fail();\n  return 0;\n}\n",
        )
        ran = self.hippo_c("check", "a.c", "--no-source", code=1)
        self.assertIn(
            "a.c:5:5: warning: store of 8 bytes to 'a' is not durable at the end of the run in a.c:6 [", ran.stdout
        )
        self.assertIn("1 report in 1 group", ran.stdout)
        ran = self.hippo_c("run", "a.c", code=0)
        self.assertEqual(ran.stderr, "main returned 3\n")

    def test_a_trap_in_merged_lines_has_the_head_and_a_note(self) -> None:
        self.write(
            "a.c",
            HEAD + "static long a[4];\nstatic long run(const char *pc) {\n"
            "  static const void *const labels[] = {&&halt, &&up, &&down};\n  goto *labels[(unsigned char)*pc];\n"
            "halt:\n  return a[1];\nup:\n  a[1]++;\n  pc++;\n  goto *labels[(unsigned char)*pc];\n"
            "down:\n  a[1]--;\n  pc++;\n  goto *labels[(unsigned char)*pc];\n}\n"
            "int main(void) {\n  static char code[] = {1, 2, 0};\n  code[1] = (char)read_i64();\n  return (int)run(code);\n}\n",
        )
        ran = self.hippo_c("run", "a.c", "-O1", "--no-source", "--input", "200", code=2)
        lines = ran.stderr.splitlines()
        self.assertRegex(lines[0], r"^a\.c:3:1: error: the run trapped: .* \[address\]$")
        self.assertEqual(lines[1], "a.c:3:1: note: clang merged lines of 'run' here; -O0 keeps them apart")

    def test_check_says_where_and_keeps_what_it_found(self) -> None:
        self.write(
            "a.c",
            HEAD + "PERSISTENT long a;\nint main(void) {\n  a = 1;\n  pm_assert(&a, 8);\n  __builtin_trap();\n}\n",
        )
        ran = self.hippo_c("check", "a.c", "--no-source", code=1)
        self.assertIn("1 report in 1 group", ran.stdout)
        self.assertIn("a.c:6:3: error: the run trapped", ran.stdout)

    def test_a_trap_without_a_report_is_not_clean(self) -> None:
        self.write(
            "a.c",
            HEAD
            + "PERSISTENT long a;\nint main(void) {\n  a = read_i64();\n  pmem_persist(&a, 8);\n  pm_assert(&a, 8);\n"
            "  if (a > 2)\n    __builtin_trap();\n  return 0;\n}\n",
        )
        ran = self.hippo_c("check", "a.c", "--no-source", "--json", "answer", "--input", "3", code=2)
        self.assertIn("a.c:8:5: error: the run trapped: ", ran.stdout)
        self.assertIn("0 reports in 0 groups", ran.stdout)
        self.assertEqual([one["groups"] for one in json.loads(self.read("answer"))["inputs"]], [[]])
        self.hippo_c("check", "a.c", "--input", "2", code=0)
        self.write("inputs", "1\n3\n2\n")
        self.hippo_c("check", "a.c", "--inputs", "inputs", code=2)

    def test_run_prints_what_the_program_prints(self) -> None:
        self.write("a.c", HEAD + "int main(void) { print_i64(read_i64() - 1); return 3; }\n")
        ran = self.hippo_c("run", "a.c", "--input", "-4", code=0)
        self.assertEqual((ran.stdout, ran.stderr), ("-5\n", "main returned 3\n"))

    def test_run_says_that_it_was_cut(self) -> None:
        self.write("a.c", HEAD + "int main(void) { while (read_i64()) {} return 0; }\n")
        for limit in (0, 2):
            ran = self.hippo_c("run", "a.c", "--limit", str(limit), "--input", "1", "1", "1", "1", code=2)
            self.assertEqual(ran.stderr, f"the run was cut after {limit} turns; --limit N gives it more\n")

    def test_a_file_without_main(self) -> None:
        self.write("a.c", HEAD + "PERSISTENT long a;\nvoid f(void) { a = 1; }\n")
        self.refused("hint: give the file that defines main, too", "check", "a.c")


def end_group(process: subprocess.Popen[bytes]) -> None:
    """Ends what a test started and did not end."""
    if process.poll() is None:
        os.killpg(process.pid, signal.SIGKILL)
        process.wait()


class Files(Case):
    """No half file is left."""

    def has_part_of_a_trace(self) -> bool:
        """Whether a trace is being written."""
        names = os.listdir(self.path("kept")) if os.path.isdir(self.path("kept")) else []
        return any(
            "trace" in name and name.endswith(".part") and os.path.getsize(self.path(f"kept/{name}")) for name in names
        )

    def test_an_interrupted_record_leaves_no_trace(self) -> None:
        self.write("a.c", HEAD + "PERSISTENT volatile long a;\nint main(void) { for (;;) a++; }\n")
        command = [
            sys.executable,
            os.path.join(TOOLS, "hippo-c"),
            "check",
            "a.c",
            "--keep",
            "kept",
            "--limit",
            "90000000000",
        ]
        # A shell starts what runs in its background with SIGINT ignored.
        process = subprocess.Popen(
            command,
            cwd=self.folder,
            stderr=subprocess.PIPE,
            start_new_session=True,
            preexec_fn=lambda: signal.signal(signal.SIGINT, signal.SIG_DFL),
        )
        self.addCleanup(end_group, process)
        until = time.monotonic() + LONG
        while time.monotonic() < until and not self.has_part_of_a_trace():
            time.sleep(0.05)
        written = self.has_part_of_a_trace()
        os.killpg(process.pid, signal.SIGINT)
        _, notes = process.communicate(timeout=LONG)
        self.assertEqual(process.returncode, 130, notes)
        self.assertIn(b"interrupted", notes)
        self.assertTrue(written, "the record wrote nothing")
        self.assertEqual(os.listdir(self.path("kept")), ["program.ll"])
