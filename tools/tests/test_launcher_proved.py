"""How the launcher builds the proved program, when that answers, and the words that are the launcher's own."""

from __future__ import annotations

import os
import shutil
import signal
import subprocess
import sys
import time
import unittest
from typing import Any, Callable

from launcher_repository import LONG, RT, Repository, small_files


def next_line(process: subprocess.Popen[str]) -> str:
    """The next line that a process writes to standard error."""
    if process.stderr is None:
        raise ValueError("standard error is no pipe")
    return process.stderr.readline()


class Proved(Repository):
    """The proved program: how it is built, and when it answers."""

    def build(self, *words: str) -> subprocess.CompletedProcess[str]:
        """Builds the program."""
        ran = self.hippo("--build", *words)
        self.assertEqual((ran.returncode, ran.stdout), (0, ""), ran.stderr)
        return ran

    def is_proved(self, **how: Any) -> bool:
        """Whether the proved program answers, and the launcher writes nothing."""
        ran = self.hippo("repair", "/dev/null", **how)
        if ran.returncode == 3:
            return False
        self.assertEqual((ran.returncode, ran.stdout, ran.stderr), (7, "proved repair /dev/null\n", ""))
        return True

    def test_build_tells_how_far_it_is(self) -> None:
        self.hold("hippo")
        ran = self.start("--build", "--jobs", "1")
        lines = [next_line(ran)]
        while "1 of 2 crates proved" not in lines[-1] and lines[-1]:
            lines.append(next_line(ran))
        self.release("hippo")
        lines += ran.communicate(timeout=LONG)[1].splitlines()
        self.assertRegex(lines[0], "proving 2 crates, 1 side by side.* about [0-9]+ minutes")
        self.assertRegex(lines[1], r"1 of 2 crates proved, .* so far, about .* left")
        self.assertRegex(lines[-2], "all crates proved, the program is compiled and tried, .* so far, about .* left")
        self.assertRegex(lines[-1], "proved and built in .*out/hippo")

    def test_answers_alone_once_built(self) -> None:
        self.build()
        self.assertTrue(self.is_proved())
        self.assertTrue((self.top / "out" / "hippo.unchanged").exists())
        (self.kit / "rt").unlink()
        self.assertTrue(self.is_proved(more={"PATH": "/usr/bin:/bin"}))

    def test_build_of_a_built_program_does_nothing(self) -> None:
        self.build()
        self.assertRegex(self.lines(self.build())[0], "is proved and built")
        self.assertEqual(self.calls("ci"), 1)

    def test_does_not_answer_for_other_sources(self) -> None:
        self.build()
        for file in ("crates/hip_low/src/lib", "crates/hippo/specs/lib", "crates.txt", "HANDLES"):
            was = (self.top / file).read_bytes()
            self.assertTrue(self.is_proved())
            if file == "crates.txt":
                (self.top / file).write_text("hip_low:\nhippo: hip_low # the tool\n")
            else:
                self.change(file)
            ran = self.hippo("repair", "/dev/null")
            self.assertEqual(ran.returncode, 3, file)
            self.assertRegex(self.lines(ran)[0], "a source changed")
            (self.top / file).write_bytes(was)
            self.assertTrue(self.is_proved(), file)

    def test_sees_new_and_lost_files(self) -> None:
        self.build()
        self.assertTrue(self.is_proved())
        (self.top / "crates" / "hippo" / "proofs").mkdir()
        self.assertTrue(self.is_proved())
        (self.top / "crates" / "hippo" / "proofs" / "new").touch()
        self.assertFalse(self.is_proved())
        shutil.rmtree(self.top / "crates" / "hippo" / "proofs")
        self.assertTrue(self.is_proved())
        (self.top / "crates" / "hip_low" / "specs" / "lib").unlink()
        self.assertFalse(self.is_proved())

    def test_sees_a_file_with_another_name(self) -> None:
        self.build()
        self.assertTrue(self.is_proved())
        specs = self.top / "crates" / "hip_low" / "specs"
        (specs / "lib").rename(specs / "lid")
        self.assertFalse(self.is_proved())
        (specs / "lid").rename(specs / "lib")
        self.assertTrue(self.is_proved())

    def test_goes_by_contents_and_not_by_times(self) -> None:
        self.build()
        for path in self.top.rglob("*"):
            os.utime(path)
        self.assertTrue(self.is_proved())

    def test_answers_in_a_fresh_clone_with_the_kept_program(self) -> None:
        self.build()
        self.assertTrue(self.is_proved())
        clone = self.room / "fresh"
        shutil.copytree(self.top, clone, symlinks=True)
        self.assertTrue(self.is_proved(script=clone / "hippo"))
        other = self.room / "other"
        shutil.copytree(self.top, other, ignore=shutil.ignore_patterns("out"))
        with (other / "crates" / "hippo" / "src" / "lib").open("a") as opened:
            opened.write("more\n")
        # The kept program is of later than the change, as where a cache is unpacked over an older clone.
        (self.top / "HANDLES").touch()
        self.assertTrue(self.is_proved())
        shutil.copytree(self.top / "out", other / "out")
        self.assertFalse(self.is_proved(script=other / "hippo"))

    def test_runs_no_damaged_program(self) -> None:
        self.build()
        self.assertTrue(self.is_proved())
        with (self.top / "out" / "hippo").open("a") as opened:
            opened.write("echo more\n")
        ran = self.hippo("repair", "/dev/null")
        self.assertEqual(ran.returncode, 3)
        self.assertRegex(self.lines(ran)[0], "not the program that was proved")

    def test_a_proof_that_fails_is_named(self) -> None:
        (self.kit / "fails").touch()
        self.fails(self.hippo("--build"), "not built: hip_low is not proved; .*build.log")
        self.assertFalse((self.top / "out" / "hippo").exists())

    def test_keeps_nothing_that_was_cut(self) -> None:
        (self.kit / "rt").write_text(RT.replace("echo proved", "echo proved # %0200000d"))
        self.fails(self.hippo("--build", preexec_fn=small_files), "hippo: ")
        self.assertFalse((self.top / "out" / "hippo").exists())

    def test_an_interrupt_ends_the_proofs(self) -> None:
        self.hold("hip_low")
        ran = self.start("--build")
        self.assertIn("proving 2 crates", next_line(ran))
        self.wait_for(lambda: self.calls("ci") == 1)
        ran.send_signal(signal.SIGINT)
        said = ran.communicate(timeout=LONG)[1]
        self.assertEqual(ran.returncode, 130)
        self.assertIn("interrupted; 0 of 2 crates are proved and kept", said)

    def test_an_interrupt_leaves_no_program_and_the_next_build_goes_on(self) -> None:
        for number, code in ((signal.SIGTERM, 128 + signal.SIGTERM), (signal.SIGKILL, -signal.SIGKILL)):
            self.hold("hippo")
            before = self.calls("ci")
            ran = self.start("--build")
            self.wait_for(lambda: self.calls("ci") == before + 1)
            ran.send_signal(number)
            ran.communicate(timeout=LONG)
            self.assertEqual(ran.returncode, code)
            self.assertFalse((self.top / "out" / "hippo").exists())
            self.assertEqual(self.hippo("repair", "/dev/null").returncode, 3)
            self.release("hippo")
        self.build()
        self.assertTrue(self.is_proved())

    def test_a_full_disk_is_named(self) -> None:
        launcher = self.top / "tools" / "launcher" / "build.py"
        launcher.write_text(launcher.read_text().replace("FULL = 64 << 20", "FULL = 1 << 60"))
        (self.kit / "fails").touch()
        self.fails(self.hippo("--build"), "not built: the disk of .*hippo-build-.* is full")
        self.assertFalse((self.top / "out" / "hippo").exists())

    def test_build_needs_a_toolchain(self) -> None:
        (self.kit / "rt").unlink()
        self.fails(self.hippo("--build", more={"PATH": "/usr/bin:/bin"}), "toolchain is missing")

    def test_a_toolchain_that_does_not_work_is_named(self) -> None:
        (self.kit / "rt").write_text("#!/bin/sh\nexit 1\n")
        self.fails(self.hippo("--build"), "toolchain does not work: .*rt version fails")

    def test_a_list_of_crates_that_cannot_be_read_is_named(self) -> None:
        for text in (b"hip_low:\n", b"hippo: \xff\n", b"a line\n"):
            (self.top / "crates.txt").write_bytes(text)
            self.fails(self.hippo("--build"), "hippo: crates.txt does not list the crates of hippo: ")

    def test_weights_that_cannot_be_read_are_named(self) -> None:
        for text in (b"hip_low ten\n", b"\xff\n"):
            (self.top / "tools" / "crate_weights.txt").write_bytes(text)
            self.fails(self.hippo("--build"), "hippo: tools/crate_weights.txt: ")

    def test_a_second_build_waits_for_the_first(self) -> None:
        self.hold("hip_low")
        first = self.start("--build")
        self.wait_for(lambda: self.calls("ci") == 1)
        second = self.start("--build")
        self.assertRegex(next_line(second), rf"another --build \(process {first.pid}\).*waiting")
        self.release("hip_low")
        first.communicate(timeout=LONG)
        self.assertEqual(first.returncode, 0)
        self.assertRegex(second.communicate(timeout=LONG)[1], "is proved and built")
        self.assertEqual(self.calls("ci"), 1)

    def test_build_says_that_it_waits_for_another_proof(self) -> None:
        (self.kit / "locked").touch()
        self.assertIn("hippo: another run on this machine is proving hip_low; waiting for it", self.lines(self.build()))

    def test_build_proves_a_copy_without_tests_and_edits(self) -> None:
        (self.top / "crates" / "hippo" / "must-fail").mkdir()
        (self.top / "crates" / "hippo" / "out").mkdir()
        (self.top / "crates" / "hippo" / "stdout").write_text("proved\n")
        (self.kit / "rt").write_text(
            RT.replace(
                "mkdir -p crates",
                'ls . crates crates/hippo >"$here/copied"; cat crates.txt >>"$here/copied"; mkdir -p crates',
            )
        )
        self.build()
        found = (self.kit / "copied").read_text().split("\n\n")
        self.assertEqual(found[1], "crates:\nhip_low\nhippo")
        self.assertEqual(found[2], "crates/hippo:\nspecs\nsrc\nstdout\nhip_low:\nhippo: hip_low\n")

    def test_a_change_during_the_build_is_seen(self) -> None:
        (self.kit / "rt").write_text(
            RT.replace("mkdir -p crates", f"echo more >>{self.top}/crates/hippo/src/lib; mkdir -p crates")
        )
        self.fails(self.hippo("--build"), "a source changed meanwhile")
        self.assertFalse((self.top / "out" / "hippo").exists())

    def test_build_writes_the_weights_anew(self) -> None:
        self.build("--write-weights")
        self.assertEqual((self.top / "tools" / "crate_weights.txt").read_text(), "# Seconds.\nhip_low 60\nhippo 120\n")

    def start(self, *words: str) -> subprocess.Popen[str]:
        """Starts the launcher; its lines come by a pipe."""
        return subprocess.Popen(
            [str(self.top / "hippo"), *words], cwd=self.work, env=self.environment(), stderr=subprocess.PIPE, text=True
        )

    def hold(self, crate: str) -> None:
        """Lets the proof of a crate wait until it is released."""
        (self.kit / f"holds-{crate}").touch()

    def release(self, crate: str) -> None:
        """Lets the proof of a crate go on."""
        (self.kit / f"holds-{crate}").unlink()

    def wait_for(self, holds: Callable[[], bool]) -> None:
        """Waits until a condition holds."""
        until = time.monotonic() + LONG
        while not holds():
            self.assertLess(time.monotonic(), until)
            time.sleep(0.05)


class Gate(Repository):
    """The program that the gate proved."""

    def keep(self) -> subprocess.CompletedProcess[str]:
        """Does what the gate does at its end."""
        command = [sys.executable, "-B", str(self.top / "tools" / "launcher" / "gate.py")]
        return subprocess.run(command, env=self.environment(), capture_output=True, text=True, timeout=LONG)

    def prove(self) -> None:
        """Makes the program as `rt ci` does."""
        subprocess.run([self.kit / "rt", "ci"], cwd=self.top, check=True, stdout=subprocess.DEVNULL)

    def test_is_kept(self) -> None:
        self.prove()
        self.assertEqual(self.keep().returncode, 0)
        self.assertEqual(self.hippo("run").stdout, "proved run\n")

    def test_is_not_kept_where_a_source_changed_later(self) -> None:
        self.prove()
        self.change("crates/hip_low/specs/lib")
        ran = self.keep()
        self.assertEqual(ran.returncode, 2)
        self.assertRegex(ran.stderr, "specs/lib changed during the gate")
        self.assertFalse((self.top / "out" / "hippo").exists())

    def test_is_not_kept_where_there_is_none(self) -> None:
        self.assertEqual(self.keep().returncode, 2)


if __name__ == "__main__":
    unittest.main()
