#!/usr/bin/env python3
"""How tools/lower ends: by a signal, with closed and full streams, with outputs that are inputs, and by a defect of its own."""
from __future__ import annotations

import itertools
import os
import signal
import stat
import subprocess
import sys
import threading
import time
import unittest
from typing import Any

from clang_case import TOOLS, ClangCase
from processes import hears, lines_of, runs_in

LOWER = os.path.join(TOOLS, "lower")
GOOD = "#include <hippo.h>\nPERSISTENT long x;\nint main(void) { x = 1; _mm_clwb(&x); _mm_sfence(); return 0; }\n"
# With a note, so that there is something for standard error.
NOTED = GOOD.replace("x = 1;", "*(volatile long *)&x = 1;")
# A program that needs a part of the runtime, so that the command takes all of its steps.
LONG = "#include <hippo.h>\n#include <stdlib.h>\nint main(void) { free(malloc(read_i64())); exit(0); }\n"
# A program that begins before the runtime of the command, and notes that it runs.
SLOW_CLANG = '#!/bin/sh\necho $$ >>"$NOTES"\nexec sleep 100\n'
GUARD = 600


class Ends(ClangCase):
    """Each way in which the command ends."""

    def file(self, name: str, text: str) -> str:
        """A file with a text."""
        path = os.path.join(self.folder, name)
        with open(path, "w", encoding="utf-8") as out:
            out.write(text)
        return path

    def shell(self, redirected: str, file: str) -> tuple[int, str]:
        """The exit code of lower and its messages, with streams as a shell redirects them."""
        errors = os.path.join(self.folder, "errors")
        with open(errors, "w", encoding="utf-8") as out:
            done = subprocess.run(
                ["sh", "-c", f'exec "$0" "$1" {redirected}', LOWER, file],
                stdout=subprocess.DEVNULL,
                stderr=out,
                check=False,
                timeout=GUARD,
            )
        with open(errors, encoding="utf-8") as text:
            return done.returncode, text.read()

    def test_closed_and_full_streams(self) -> None:
        """A text that cannot be written is a write fault; where messages cannot be written, the exit code is still right."""
        good, noted, missing = (
            self.file("good.c", GOOD),
            self.file("noted.c", NOTED),
            os.path.join(self.folder, "none.c"),
        )
        closed, full = (
            "lower: write fault: standard output is closed\n",
            "lower: write fault: No space left on device\n",
        )
        for redirected, file, code, said in (
            (">&-", good, 4, closed),
            (">/dev/full", good, 4, full),
            ("<&-", good, 0, ""),
            ("2>&-", good, 0, ""),
            ("2>/dev/full", good, 0, ""),
            ("2>/dev/full", noted, 4, ""),
            ("2>&-", noted, 0, ""),
            ("2>&-", missing, 2, ""),
            ("2>/dev/full", missing, 2, ""),
            ("<&- >&- 2>&-", good, 4, ""),
            (">&- 2>/dev/full", missing, 4, ""),
            ("--help >/dev/full", good, 4, full),
            ("--none 2>&-", good, 1, ""),
        ):
            with self.subTest(redirected=redirected, file=file):
                self.assertEqual(self.shell(redirected, file), (code, said))

    def test_without_standard_streams_no_file_takes_their_numbers(self) -> None:
        """With closed streams the text of a program is the same, and nothing else is in it."""
        noted, text = self.file("noted.c", NOTED), os.path.join(self.folder, "text.ll")
        self.assertEqual(self.shell(f"<&- 2>&- >{text}", noted)[0], 0)
        wanted = subprocess.run([LOWER, noted], capture_output=True, check=True).stdout
        with open(text, "rb") as written:
            self.assertEqual(written.read(), wanted)

    def test_signals(self) -> None:
        """At ten times, each signal leaves no folder and no program of lower, and the exit code names it."""
        file = self.file("long.c", LONG)
        began = time.monotonic()
        subprocess.run([LOWER, file], stdout=subprocess.DEVNULL, check=True)
        whole = time.monotonic() - began
        for number in (signal.SIGTERM, signal.SIGHUP, signal.SIGINT):
            for step in range(10):
                with self.subTest(signal=number.name, step=step):
                    self.end_by(number, file, whole * (step + 1) / 11)

    def end_by(self, number: signal.Signals, file: str, seconds: float) -> None:
        """Sends a signal some seconds after lower began to hear signals; Python itself may fail in its own way while it starts."""
        room = os.path.join(self.folder, "room")
        os.makedirs(room, exist_ok=True)
        process = subprocess.Popen(
            [LOWER, file],
            stdout=subprocess.DEVNULL,
            stderr=subprocess.PIPE,
            encoding="utf-8",
            env={**os.environ, "TMPDIR": room},
            start_new_session=True,
        )
        while process.poll() is None and not hears(process.pid):
            time.sleep(0.005)
        time.sleep(seconds)
        process.send_signal(number)
        _, errors = process.communicate(timeout=GUARD)
        self.assertIn(process.returncode, (128 + number, 0), errors)
        self.assertNotIn("Traceback", errors)
        self.assertEqual(os.listdir(room), [])
        self.assertFalse(runs_in(process.pid))

    def test_a_signal_ends_what_runs(self) -> None:
        """The program of LLVM that runs at the signal is ended, and lower waits for it."""
        tools, notes = os.path.join(self.folder, "slow"), os.path.join(self.folder, "notes")
        os.makedirs(tools)
        os.chmod(self.file("slow/clang-19", SLOW_CLANG), 0o755)
        for number in (signal.SIGTERM, signal.SIGHUP, signal.SIGINT):
            with self.subTest(signal=number.name):
                open(notes, "w", encoding="utf-8").close()
                process = subprocess.Popen(
                    [LOWER, self.file("one.c", GOOD), self.file("two.c", "int other;\n")],
                    env={**os.environ, "PATH": f'{tools}:{os.environ["PATH"]}', "NOTES": notes},
                    stdout=subprocess.DEVNULL,
                    stderr=subprocess.PIPE,
                )
                while len(lines_of(notes)) < min(2, os.cpu_count() or 1):
                    self.assertIsNone(process.poll())
                    time.sleep(0.02)
                process.send_signal(number)
                self.assertEqual((process.communicate(timeout=GUARD)[1], process.returncode), (b"", 128 + number))
                for line in lines_of(notes):
                    with self.assertRaises(ProcessLookupError):
                        os.kill(int(line), 0)

    def test_an_ignored_signal_stays_ignored(self) -> None:
        """What runs under `nohup` goes on."""
        file = self.file("good.c", GOOD)
        process = subprocess.Popen(["sh", "-c", 'trap "" HUP; exec "$0" "$1"', LOWER, file], stdout=subprocess.PIPE)
        threading.Timer(0.3, lambda: process.send_signal(signal.SIGHUP)).start()
        text, _ = process.communicate(timeout=GUARD)
        self.assertEqual(process.returncode, 0)
        self.assertIn(b"define i32 @main", text)

    def refuse(self, words: list[str], reason: str, **more: Any) -> None:
        """A command line is refused, and no file changes."""
        before = {name: os.stat(os.path.join(self.folder, name)) for name in os.listdir(self.folder)}
        done = subprocess.run(
            [LOWER, *words],
            stdout=more.get("stdout", subprocess.PIPE),
            stderr=subprocess.PIPE,
            check=False,
            cwd=self.folder,
            timeout=GUARD,
        )
        self.assertEqual(done.returncode, 1, done.stderr)
        self.assertEqual((done.stdout or b"", done.stderr.decode()), (b"", f"lower: {reason}\n"))
        self.assertEqual(
            {name: os.stat(os.path.join(self.folder, name)).st_mtime_ns for name in before},
            {name: found.st_mtime_ns for name, found in before.items()},
        )

    def test_an_output_that_is_an_input(self) -> None:
        """The list of names goes to no file that is read, that has the ending of a source, or that is a folder."""
        good, pool = self.file("good.c", GOOD), self.file("pool", "\0" * 8)
        os.makedirs(os.path.join(self.folder, "inner"), exist_ok=True)
        for name in ("link", "hard"):
            if os.path.lexists(path := os.path.join(self.folder, name)):
                os.unlink(path)
        os.symlink("good.c", os.path.join(self.folder, "link"))
        os.link(good, os.path.join(self.folder, "hard"))
        for option, name in itertools.product(("-o", "--public"), ("good.c", "link", "hard")):
            self.refuse([option, name, "good.c"], f"{option} {name}: this file is read, as good.c")
        self.refuse(["--pool", "p=4K,pool", "--public", pool, "good.c"], f"--public {pool}: this file is read, as pool")
        for name in ("other.c", "new.h", "out.ll"):
            self.refuse(
                ["--public", name, "good.c"],
                f"--public {name}: by its name this is a source; give the output another name",
            )
        self.refuse(
            ["-o", "other.c", "good.c"], "-o other.c: by its name this is a source; give the output another name"
        )
        self.refuse(["-o", "out", "--public", "./out", "good.c"], "--public ./out: the text goes to this file, too")
        for option in ("-o", "--public"):
            self.refuse([option, "inner", "good.c"], f"{option} inner: this is a folder")
        with open(good, "ab") as out:
            self.refuse(["good.c"], "good.c is read, and is the standard output, too", stdout=out)
        names = self.file("names", "")
        with open(names, "ab") as out:
            self.refuse(["--public", "names", "good.c"], "--public names: the text goes to this file, too", stdout=out)

    def test_an_output_is_written_through(self) -> None:
        """A link, a FIFO and a device stay what they are; a new file has the permissions of one, an old one keeps its own."""
        good = self.file("good.c", GOOD)
        target, link, fifo, new = (os.path.join(self.folder, name) for name in ("target", "linked", "fifo", "fresh"))
        self.file("target", "old")
        os.chmod(target, 0o640)
        os.symlink("target", link)
        os.mkfifo(fifo)
        reader = subprocess.Popen(["cat", fifo], stdout=subprocess.PIPE)
        for path in (link, fifo, new, "/dev/null"):
            subprocess.run([LOWER, "--public", path, "-o", f"{new}.ll", good], check=True, umask=0o022, timeout=GUARD)
        self.assertEqual(reader.communicate(timeout=GUARD)[0], b"x\nmain\n")
        with open(f"{new}.ll", encoding="ascii") as text:
            self.assertIn("define i32 @main() {\n", text.read())
        self.assertTrue(os.path.islink(link))
        self.assertTrue(stat.S_ISCHR(os.stat("/dev/null").st_mode))
        for path, mode in ((target, 0o640), (new, 0o644)):
            with open(path, "rb") as text:
                self.assertEqual(text.read(), b"x\nmain\n")
            self.assertEqual(stat.S_IMODE(os.stat(path).st_mode), mode)
        self.assertEqual([name for name in os.listdir(self.folder) if name.endswith(".part")], [])

    def test_an_input_from_a_pipe(self) -> None:
        """A text from a pipe is read once; a device, which may have no end, is refused, and so is bitcode."""
        text = subprocess.run([LOWER, self.file("good.c", GOOD)], capture_output=True, check=True).stdout
        piped = subprocess.run([LOWER, "/dev/stdin"], input=text, capture_output=True, check=True)
        self.assertIn(b"call void @llvm.x86.clwb(ptr @x)", piped.stdout)
        done = subprocess.run([LOWER, "/dev/zero"], capture_output=True, check=False, timeout=GUARD)
        self.assertEqual((done.returncode, done.stderr), (3, b"lower: read fault: /dev/zero: this is a device\n"))
        bitcode = os.path.join(self.folder, "a.bc")
        subprocess.run(["llvm-as-19", "-o", bitcode, "-"], input=text, check=True)
        done = subprocess.run([LOWER, bitcode], capture_output=True, check=False)
        self.assertEqual((done.returncode, done.stdout), (5, b""))
        self.assertIn(b"a.bc: this is bitcode", done.stderr)

    def test_arguments_of_clang_that_leave_no_text(self) -> None:
        """What ends clang early, or sends its text elsewhere, is refused by name."""
        good = self.file("good.c", GOOD)
        nothing = f"{good}: clang wrote no text of LLVM's: an argument after -- asks for something else"
        for words, code, said in (
            ([good, "--", "-fsyntax-only"], 5, nothing),
            ([good, "--", "-E"], 5, nothing),
            ([good, "--", "-o", "good.o"], 1, "-o for clang: the text goes to standard output"),
            (["@good.c"], 1, "@good.c: a name that begins with @ is to clang a file of arguments"),
        ):
            done = subprocess.run([LOWER, *words], capture_output=True, encoding="utf-8", check=False)
            self.assertEqual((done.returncode, done.stdout), (code, ""), done.stderr)
            self.assertTrue(done.stderr.endswith(f"{said}\n"), done.stderr)

    def test_control_characters_of_names_are_escaped(self) -> None:
        """A name of a file cannot forge a line of a log."""
        done = subprocess.run([LOWER, "a\n::error file=b::forged.c"], capture_output=True, check=False)
        self.assertEqual((done.returncode, done.stderr), (2, b"lower: no file: a\\x0a::error file=b::forged.c\n"))

    def test_a_defect_names_its_file_and_line(self) -> None:
        """A defect has a place, an exit code of its own, and a traceback if a variable asks for it."""
        script = (
            "import sys; sys.path.insert(0, sys.argv[1]); from lowering import command\n"
            'def fail(_): raise KeyError("no such thing")\n'
            'command.program_of = fail\nsys.exit(command.main([sys.argv[2]], ""))'
        )
        words = [sys.executable, "-B", "-c", script, TOOLS, self.file("good.c", GOOD)]
        done = subprocess.run(words, capture_output=True, encoding="utf-8", check=False)
        self.assertEqual((done.returncode, done.stdout), (70, ""))
        self.assertRegex(
            done.stderr,
            r"^lower: a defect of this tool: KeyError: 'no such thing' at \S+:2, in fail; "
            r"HIPPO_TRACEBACK=1 shows more\n$",
        )
        done = subprocess.run(
            words, capture_output=True, encoding="utf-8", check=False, env={**os.environ, "HIPPO_TRACEBACK": "1"}
        )
        self.assertEqual(done.returncode, 70)
        self.assertRegex(done.stderr, r'lower:   File ".*/lowering/command.py", line \d+, in lower\n')


if __name__ == "__main__":
    unittest.main()
