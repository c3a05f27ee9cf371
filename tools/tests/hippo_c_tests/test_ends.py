"""How hippo-c ends: by signals at any time, with standard streams that are closed or full, and by a defect."""
import os
import signal
import subprocess
import sys
import time
import unittest
from collections.abc import Callable

from .common import TOOLS, Case

from hippo_c.running import hippo_program

HEAD = "#include <hippo.h>\n"
CLEAN = HEAD + "PERSISTENT long x;\nint main(void) { x = 1; _mm_clwb(&x); _mm_sfence(); return 0; }\n"
FOUND = HEAD + "PERSISTENT long x;\nint main(void) { x = 1; return 0; }\n"
# A run of many turns, and a file that clang compiles for some seconds.
SLOW_RUN = (
    HEAD + "PERSISTENT long y[8];\nint main(void) { for (long i = 0; i < 900000000; i++) y[i & 7] = i; return 0; }\n"
)
SLOW_FILE = (
    HEAD
    + "#define A(x) x x x x x x x x x x\nint f(int i) { A(A(A(A(i = i * 3 + i / 7; if (i > 9) i += f(i);)))) return i; }\n"
    "int main(void) { return f(3); }\n"
)
SIGNALS = (signal.SIGTERM, signal.SIGHUP, signal.SIGINT)
TIMES = 10
# A guard of last resort, far above what an end takes.
LONGEST = 300


class Signals(Case):
    """A signal at any time leaves no folder and no program behind."""

    def started(self, *words: str, **environment: str) -> subprocess.Popen[bytes]:
        """hippo-c with a folder for temporary files of its own."""
        os.makedirs(self.path("t"), exist_ok=True)
        return subprocess.Popen(
            [sys.executable, os.path.join(TOOLS, "hippo-c"), *words],
            cwd=self.folder,
            stdin=subprocess.DEVNULL,
            stdout=subprocess.PIPE,
            stderr=subprocess.PIPE,
            env={**os.environ, "TMPDIR": self.path("t"), **environment},
        )

    def waits_until(self, holds: Callable[[], bool], process: subprocess.Popen[bytes]) -> None:
        """Waits for a state of a process that goes on."""
        until = time.monotonic() + LONGEST
        while not holds():
            self.assertIsNone(process.poll(), "it ended before the signal")
            self.assertLess(time.monotonic(), until, "the state did not come")
            time.sleep(0.01)

    def programs(self) -> list[str]:
        """The programs that have the folder for temporary files in their environment."""
        found = []
        for name in filter(str.isdigit, os.listdir("/proc")):
            try:
                with open(f"/proc/{name}/environ", "rb") as environment, open(f"/proc/{name}/cmdline", "rb") as words:
                    if os.fsencode(self.path("t")) in environment.read():
                        found.append(words.read().replace(b"\0", b" ").decode("utf-8", "replace"))
            except OSError:
                continue
        return found

    def ends(self, process: subprocess.Popen[bytes], number: int) -> None:
        """A signal ends the process with its exit code, and nothing is left."""
        process.send_signal(number)
        _, notes = process.communicate(timeout=LONGEST)
        self.assertEqual(process.returncode, 128 + number, notes)
        self.assertNotIn(b"Traceback", notes)
        self.assertEqual(self.programs(), [])
        self.assertEqual(os.listdir(self.path("t")), [])

    def catches(self, process: subprocess.Popen[bytes]) -> bool:
        """Whether a process has taken over the signals."""
        with open(f"/proc/{process.pid}/status", encoding="ascii") as status:
            caught = next(line for line in status if line.startswith("SigCgt")).split()[1]
        return bool(int(caught, 16) & 1 << signal.SIGTERM - 1)

    def has(self, word: str) -> Callable[[], bool]:
        """Whether a program with this word in its command line runs below hippo-c."""
        return lambda: any(word in words for words in self.programs())

    def test_ten_times_of_a_check(self) -> None:
        """From its first moments to its run of hippo, each signal in turn."""
        self.write("slow.c", SLOW_RUN)
        began = time.monotonic()
        process = self.started("check", "slow.c")
        self.waits_until(self.has("record"), process)
        whole = time.monotonic() - began
        self.ends(process, signal.SIGTERM)
        for step in range(TIMES):
            with self.subTest(step=step, signal=SIGNALS[step % 3].name):
                process = self.started("check", "slow.c")
                self.waits_until(lambda: self.catches(process), process)
                time.sleep(whole * step / (TIMES - 1))
                self.ends(process, SIGNALS[step % 3])

    def test_while_each_of_its_programs_runs(self) -> None:
        self.write("slow.c", SLOW_RUN)
        self.write("large.c", SLOW_FILE)
        for words, child in (
            (("check", "large.c"), "clang-19"),
            (("run", "slow.c"), "program.ll"),
            (("explore", "slow.c", "--crashes", "0"), "given"),
        ):
            for number in SIGNALS:
                with self.subTest(words=words, signal=number.name):
                    process = self.started(*words)
                    self.waits_until(self.has(child if child != "given" else "record"), process)
                    self.ends(process, number)

    def test_a_search_shows_what_it_found_before_an_interrupt(self) -> None:
        self.write(
            "a.c",
            HEAD
            + "PERSISTENT long x;\nint main(void) { for (long i = read_i64(); i > 0; i--) x += read_i64(); return 0; }\n",
        )
        process = self.started("explore", "a.c", "--input", "1", "7", "--time", "100000", "--crashes", "0")
        self.waits_until(self.has(" explore --input "), process)
        time.sleep(1)
        process.send_signal(signal.SIGINT)
        said, notes = process.communicate(timeout=LONGEST)
        self.assertEqual(process.returncode, 128 + signal.SIGINT, notes)
        self.assertIn(b"interrupted: the answer has what was found and confirmed until then\n", said)
        self.assertEqual((self.programs(), os.listdir(self.path("t"))), ([], []))

    def test_two_signals(self) -> None:
        self.write("slow.c", SLOW_RUN)
        process = self.started("check", "slow.c")
        self.waits_until(self.has("record"), process)
        process.send_signal(signal.SIGTERM)
        process.send_signal(signal.SIGINT)
        _, notes = process.communicate(timeout=LONGEST)
        self.assertIn(process.returncode, (128 + signal.SIGTERM, 128 + signal.SIGINT), notes)
        self.assertNotIn(b"Traceback", notes)
        self.assertEqual((self.programs(), os.listdir(self.path("t"))), ([], []))

    def test_an_interrupt_that_only_hippo_sees_is_one(self) -> None:
        """hippo's end by an interrupt is seen before hippo-c's own signal; a launcher says so by 130."""
        self.write("a.c", CLEAN)
        for text in ("kill -INT $$", "exit 130"):
            self.write("hippo", f"#!/bin/sh\n{text}\n")
            os.chmod(self.path("hippo"), 0o755)
            process = self.started("check", "a.c", HIPPO_PROGRAM=self.path("hippo"))
            _, notes = process.communicate(timeout=LONGEST)
            self.assertEqual((process.returncode, notes), (130, b"hippo-c: interrupted\n"))
            self.assertEqual(os.listdir(self.path("t")), [])

    def test_the_launcher_and_what_it_runs_end(self) -> None:
        self.write("a.c", CLEAN)
        self.write("hippo", '#!/bin/sh\ntrap "" TERM\nsleep 300 &\nwait\nwait\n')
        os.chmod(self.path("hippo"), 0o755)
        process = self.started("check", "a.c", HIPPO_PROGRAM=self.path("hippo"))
        self.waits_until(self.has("sleep 300"), process)
        self.ends(process, signal.SIGHUP)

    def test_a_signal_that_is_ignored_stays_so(self) -> None:
        """As under nohup."""
        self.write("a.c", CLEAN)
        self.write("hippo", "#!/bin/sh\nkill -HUP $PPID\nsleep 0.3\nexit 3\n")
        os.chmod(self.path("hippo"), 0o755)
        words = f'trap "" HUP; {sys.executable} {TOOLS}/hippo-c check a.c'
        ran = self.command("sh", "-c", words, env={**os.environ, "HIPPO_PROGRAM": self.path("hippo")})
        self.assertEqual(ran.returncode, 2, ran.stderr)
        self.assertIn("hippo record answered 3", ran.stderr)


class Streams(Case):
    """A standard stream that is closed or full: 2, and never a traceback."""

    def code(self, words: str, redirected: str) -> int:
        """The exit code of hippo-c with a stream redirected by the shell; what it says has no traceback."""
        ran = self.command("sh", "-c", f"{sys.executable} {TOOLS}/hippo-c {words} {redirected}")
        self.assertNotIn("Traceback", ran.stdout + ran.stderr)
        self.assertNotIn("Exception", ran.stdout + ran.stderr)
        return ran.returncode

    def test_each_stream_closed_and_full(self) -> None:
        self.write("clean.c", CLEAN)
        self.write("found.c", FOUND)
        # What is written, and the exit code where the stream is there.
        for words, writes, usual in (
            ("check clean.c --no-coverage", 1, 0),
            ("check found.c --no-coverage", 1, 1),
            ("check nosuch.c", 2, 2),
            ("run clean.c", 2, 0),
            ("repair found.c -o out.ll", 1, 0),
            ("--help", 1, 0),
            ("check --nonsense", 2, 2),
        ):
            for redirected in ("<&-", ">&-", "2>&-", ">/dev/full", "2>/dev/full", "<&- >&- 2>&-"):
                stream = {"<&-": 0, ">&-": 1, ">/dev/full": 1, "2>&-": 2, "2>/dev/full": 2}.get(redirected, writes)
                if stream in (0, writes):
                    with self.subTest(words=words, redirected=redirected):
                        self.assertEqual(
                            self.code(words, redirected), usual if stream == 0 and ">" not in redirected else 2
                        )

    def test_a_stream_that_is_not_needed(self) -> None:
        self.write("clean.c", CLEAN)
        self.assertEqual(self.code("check clean.c --no-coverage", "2>&-"), 0)
        self.assertEqual(self.code("check clean.c --no-coverage", "2>/dev/full"), 0)

    def test_a_closed_stream_gives_its_number_to_no_file(self) -> None:
        self.write("found.c", FOUND)
        self.assertEqual(self.code("check found.c --keep kept", ">&- 2>&-"), 2)
        for name in os.listdir(self.path("kept")):
            self.assertNotIn("warning", self.read(f"kept/{name}"))

    def test_a_reader_that_goes_away(self) -> None:
        self.write("found.c", FOUND)
        ran = self.command(
            "bash", "-c", f"{sys.executable} {TOOLS}/hippo-c check found.c | true; echo ${{PIPESTATUS[0]}}"
        )
        self.assertEqual((ran.stdout, ran.stderr), ("2\n", ""))


class Messages(Case):
    """What a failure names."""

    def test_files_that_hippo_does_not_name(self) -> None:
        self.write("a.c", FOUND)
        for command, code, said, noted in (
            ("record", 2, "no file: program", ("program is kept/program.ll, the lowered text",)),
            ("record", 4, "write fault", ("the output is kept/program.trace",)),
            ("check", 6, "trace entry 3: differs", ("trace is kept/program.trace",)),
            ("check", 3, "read fault", ("program is kept/program.ll, the lowered text", "trace is kept/program.trace")),
        ):
            self.write(
                "hippo",
                f'#!/bin/sh\nif [ "$1" = {command} ]; then echo "hippo: not built here; another build answers" >&2; '
                f'echo "hippo: {said}" >&2; echo "hippo: $2: no such file" >&2; exit {code}; fi\nexec {hippo_program()} "$@"\n',
            )
            os.chmod(self.path("hippo"), 0o755)
            ran = self.hippo_c(
                "check", "a.c", "--keep", "kept", code=2, env={**os.environ, "HIPPO_PROGRAM": self.path("hippo")}
            )
            lines = [line for line in ran.stderr.splitlines() if not line.startswith("hippo-c: hint: ")]
            self.assertEqual(
                lines,
                [f"hippo-c: error: {command} of a.c: hippo: {said}", *(f"hippo-c: note: {note}" for note in noted)],
            )

    def test_a_defect_names_its_line_and_its_calls(self) -> None:
        self.write(
            "run.py",
            f"import sys\nsys.path.insert(0, {TOOLS!r})\nfrom hippo_c import command\n"
            'def fails(*_):\n    raise KeyError("a name")\ncommand.carry_out = fails\nsys.exit(command.main([]))\n',
        )
        ran = self.command(sys.executable, "-B", self.path("run.py"))
        self.assertEqual((ran.returncode, ran.stdout), (2, ""))
        self.assertEqual(
            ran.stderr,
            f"hippo-c: error: a defect of hippo-c: KeyError: 'a name' at {self.path('run.py')}:5 in fails\n"
            "hippo-c: hint: HIPPO_TRACEBACK=1 in the environment shows the calls; please report this defect\n",
        )
        ran = self.command(sys.executable, "-B", self.path("run.py"), env={**os.environ, "HIPPO_TRACEBACK": "1"})
        self.assertEqual(ran.returncode, 2)
        self.assertRegex(
            ran.stderr, r'(?s)^Traceback .*run\.py", line 5, in fails\n.*\nhippo-c: error: a defect of hippo-c: '
        )


if __name__ == "__main__":
    unittest.main()
