"""When the launcher trusts the proved program without reading the sources."""

from __future__ import annotations

import os
import shutil
import sys
import time
from pathlib import Path

from launcher_repository import TOP, Repository

sys.path.insert(0, str(TOP / "tools" / "launcher"))
sys.path.insert(0, str(TOP / "tools"))

import kept  # noqa: E402

HOUR = 3600


class Marks(Repository):
    """A repository whose program is proved, with the mark that the first answer made."""

    def setUp(self) -> None:
        """Proves the program, and lets it answer."""
        super().setUp()
        self.assertEqual(self.hippo("--build").returncode, 0)
        self.assertTrue(self.is_proved())

    @property
    def mark(self) -> Path:
        """The mark."""
        return self.top / "out" / "hippo.unchanged"

    @property
    def watched(self) -> Path:
        """The list of what is watched."""
        return self.top / "out" / "hippo.watched"

    def is_proved(self, top: Path | None = None) -> bool:
        """Whether the proved program answers; otherwise the unproved build says why it does."""
        ran = self.hippo("repair", "/dev/null", script=(top or self.top) / "hippo")
        if ran.returncode == 3:
            self.assertRegex(
                ran.stderr,
                "a source changed after the program was proved|not proved here yet|not the program that was proved",
            )
            return False
        self.assertEqual((ran.returncode, ran.stdout, ran.stderr), (7, "proved repair /dev/null\n", ""))
        return True

    def trusts_the_mark(self) -> bool:
        """Whether the script answers without Python."""
        tools = self.room / "tools"
        tools.mkdir(exist_ok=True)
        for tool in ("find", "sha256sum", "sh", "bash"):
            if not (tools / tool).exists():
                (tools / tool).symlink_to(shutil.which(tool) or tool)
        return self.hippo("repair", "/dev/null", more={"PATH": str(tools)}).returncode == 7

    def edit(self) -> None:
        """Changes a source."""
        with (self.top / "crates" / "hip_low" / "src" / "lib").open("a") as opened:
            opened.write("more\n")

    def other(self) -> Path:
        """Another clone, with a changed source and without a program."""
        other = self.room / "other"
        shutil.copytree(self.top, other, ignore=shutil.ignore_patterns("out"))
        with (other / "crates" / "hippo" / "src" / "lib").open("a") as opened:
            opened.write("more\n")
        return other

    def test_the_script_answers_alone(self) -> None:
        self.assertTrue(self.trusts_the_mark())
        self.assertTrue(self.trusts_the_mark())
        self.assertRegex(self.mark.read_text(), r"^[0-9a-f]{64}\n$")

    def test_a_mark_of_a_clock_that_was_ahead(self) -> None:
        ahead = time.time() + HOUR
        for file in (self.mark, self.watched, self.top / "out" / "hippo"):
            os.utime(file, (ahead, ahead))
        self.assertTrue(self.is_proved())
        for file in (self.mark, self.watched):
            os.utime(file, (ahead, ahead))
        self.edit()
        self.assertFalse(self.trusts_the_mark())
        self.assertFalse(self.is_proved())

    def test_a_mark_that_came_with_a_cache(self) -> None:
        other = self.other()
        shutil.copytree(self.top / "out", other / "out")
        self.assertFalse(self.is_proved(other))

    def test_a_list_that_is_empty_or_cut(self) -> None:
        whole = self.watched.read_bytes()
        for left in (b"", whole[: len(whole) // 2], whole[:-1], whole.split(b"\0")[0] + b"\0"):
            self.watched.write_bytes(left)
            self.assertFalse(self.trusts_the_mark())
        self.watched.write_bytes(b"")
        self.edit()
        self.assertFalse(self.is_proved())
        (self.top / "out" / "hippo").write_text("#!/bin/sh\necho foreign\n")
        self.assertNotIn("foreign", self.hippo("repair", "/dev/null").stdout)

    def test_a_mark_that_is_empty_or_cut(self) -> None:
        whole = self.mark.read_bytes()
        for left in (b"", b"\n", whole[:20], whole[:20] + b"\n"):
            self.mark.write_bytes(left)
            self.assertFalse(self.trusts_the_mark())
            self.assertTrue(self.is_proved())
            self.assertTrue(self.trusts_the_mark())

    def test_crates_that_were_exchanged(self) -> None:
        other = self.other()
        self.assertTrue(self.trusts_the_mark())
        (self.top / "crates").rename(self.top / "crates.old")
        (other / "crates").rename(self.top / "crates")
        self.assertFalse(self.trusts_the_mark())
        self.assertFalse(self.is_proved())
        (self.top / "crates").rename(other / "crates")
        (self.top / "crates.old").rename(self.top / "crates")
        self.assertTrue(self.is_proved())

    def test_a_program_that_was_moved_to_another_clone(self) -> None:
        other = self.other()
        (self.top / "out").rename(other / "out")
        self.assertFalse(self.is_proved(other))

    def test_links_are_refused_by_name(self) -> None:
        for name in ("crates/hip_low/src/lib", "crates/hip_low/specs", "crates/hippo", "crates", "HANDLES"):
            path, away = self.top / name, self.room / "away"
            path.rename(away)
            path.symlink_to(away)
            self.fails(
                self.hippo("repair", "/dev/null"),
                f"^hippo: {path} is a link; each source must be a file in its own folder$",
            )
            path.unlink()
            away.rename(path)
            self.assertTrue(self.is_proved(), name)

    def test_a_change_while_the_mark_is_made(self) -> None:
        program, source = self.top / "out" / "hippo", self.top / "crates" / "hippo" / "src" / "lib"
        for is_unchanged in (True, False):
            kept.Mark(program).make(self.top, [source.relative_to(self.top)], lambda: is_unchanged)
            self.assertEqual(bool(self.mark.read_bytes()), is_unchanged)

    def test_a_clock_of_whole_seconds_takes_longer(self) -> None:
        file = self.top / "HANDLES"
        fine = kept.state_of(os.fsencode(self.top), [b"HANDLES"])
        self.assertEqual(fine[1], kept.COARSE_STEP if file.stat().st_ctime_ns % 10**9 == 0 else kept.CLOCK_STEP)


if __name__ == "__main__":
    import unittest

    unittest.main()
