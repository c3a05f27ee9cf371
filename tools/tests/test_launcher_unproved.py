"""The launcher's answers before the program is proved."""

from __future__ import annotations

import contextlib
import os
import signal
import subprocess
import unittest
from pathlib import Path

from launcher_repository import LONG, Repository, small_files


class Unproved(Repository):
    """The answers before the program is proved."""

    def test_answers_with_the_output_of_the_command(self) -> None:
        (self.work / "a.ll").write_text("text\n")
        ran = self.hippo("repair", "a.ll", str(self.work / "a.ll"))
        self.assertEqual((ran.returncode, ran.stdout), (3, "text\n"))
        self.assertEqual(ran.stderr.splitlines()[1:], ["counts 2"])
        self.assertRegex(
            self.lines(ran)[0], r"not proved here yet; .*unproved.*\./hippo --build .* about [0-9]+ minutes?"
        )

    def test_is_made_once(self) -> None:
        for _ in range(2):
            ran = self.hippo("repair", "/dev/stdin", input="piped\n")
            self.assertEqual((ran.returncode, ran.stdout), (3, "piped\n"))
            self.assertEqual(len(self.lines(ran)), 1)
        self.assertEqual(self.calls("try"), 1)

    def test_reads_what_the_caller_opened(self) -> None:
        reads, writes = os.pipe()
        os.write(writes, b"piped\n")
        os.close(writes)
        self.assertEqual(self.hippo("repair", f"/dev/fd/{reads}", pass_fds=(reads,)).stdout, "piped\n")
        os.close(reads)

    def test_leaves_no_process_and_no_file(self) -> None:
        ran = self.hippo("repair", "/dev/null", more={"TMPDIR": str(self.work)})
        self.assertEqual(ran.returncode, 3)
        self.assertEqual([path.name for path in self.work.iterdir()], ["repair"])
        for process in Path("/proc").iterdir():
            with contextlib.suppress(OSError):
                self.assertFalse(os.readlink(process / "exe").startswith(str(self.work)))

    def test_is_made_anew_for_changed_code_alone(self) -> None:
        self.hippo("repair", "/dev/null")
        self.change("crates/hip_low/specs/lib")
        self.hippo("repair", "/dev/null")
        self.assertEqual(self.calls("try"), 1)
        self.change("crates/hip_low/src/lib")
        self.assertEqual(self.hippo("repair", "/dev/null").returncode, 3)
        self.assertEqual(self.calls("try"), 2)

    def test_answers_one_of_two_at_once_and_then_the_other(self) -> None:
        command = [str(self.top / "hippo"), "repair", "/dev/null"]
        both = [
            subprocess.Popen(command, cwd=self.work, env=self.environment(), stderr=subprocess.DEVNULL)
            for _ in range(2)
        ]
        self.assertEqual([ran.wait(timeout=LONG) for ran in both], [3, 3])
        self.assertEqual(self.calls("try"), 1)

    def test_says_that_a_check_at_run_time_stopped_it(self) -> None:
        (self.work / "demo").write_text('echo "ERROR: an index" >"${ASAN_OPTIONS#log_path=}.1"\nexit 1\n')
        self.fails(self.hippo("demo"), "stopped at a check .*--build")

    def test_says_that_it_needs_more_memory(self) -> None:
        (self.work / "demo").write_text('echo "ERROR: failed to allocate" >"${ASAN_OPTIONS#log_path=}.1"\nexit 1\n')
        self.fails(self.hippo("demo"), "more memory .*--build")

    def test_ends_by_the_signal_that_ends_the_command(self) -> None:
        (self.work / "demo").write_text("kill -PIPE $$\n")
        self.assertEqual(self.hippo("demo").returncode, -signal.SIGPIPE)

    def test_lines_that_cannot_be_written_go_nowhere(self) -> None:
        (self.work / "a.ll").write_text("text\n")
        for redirected in ("2>&-", "2>/dev/full"):
            command = ["sh", "-c", f'exec "$0" repair a.ll {redirected}', str(self.top / "hippo")]
            ran = subprocess.run(
                command, cwd=self.work, env=self.environment(), stdout=subprocess.PIPE, timeout=LONG, check=False
            )
            self.assertEqual((ran.returncode, ran.stdout), (3, b"text\n"), redirected)

    def test_needs_a_toolchain(self) -> None:
        (self.kit / "rt").unlink()
        self.fails(self.hippo("repair", "/dev/null", more={"PATH": "/usr/bin:/bin"}), "toolchain is missing")

    def test_needs_no_toolchain_once_made(self) -> None:
        self.hippo("repair", "/dev/null")
        (self.kit / "rt").unlink()
        self.assertEqual(self.hippo("repair", "/dev/null", more={"PATH": "/usr/bin:/bin"}).returncode, 3)

    def test_says_that_the_sources_do_not_compile(self) -> None:
        (self.kit / "no-program").touch()
        self.fails(self.hippo("repair", "/dev/null"), "do not compile; .*unproved/log")
        self.assertIn("no such name", (self.top / "out" / "unproved" / "log").read_text())

    def test_keeps_nothing_that_was_cut(self) -> None:
        ran = self.hippo("repair", "/dev/null", preexec_fn=small_files)
        self.fails(ran, "hippo: ")
        self.assertFalse((self.top / "out" / "unproved" / "hippo").exists())
        self.assertEqual(self.hippo("repair", "/dev/null").returncode, 3)


if __name__ == "__main__":
    unittest.main()
