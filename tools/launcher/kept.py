"""A program that is kept with a stamp of the contents that it was made from."""

from __future__ import annotations

import contextlib
import hashlib
import os
import shutil
import tempfile
import time
from pathlib import Path
from typing import Callable, Iterable

# Where the proved program is, below the top.
PROVED = "out/hippo"
FIELDS = ("sources", "program", "commit", "toolchain", "time")
# Seconds; more than the step of the clock from which a file system takes the time of a change, also where it keeps whole seconds.
CLOCK_STEP, COARSE_STEP = 0.02, 2.1


def digest_of(file: Path) -> str:
    """The digest of a file's contents."""
    total = hashlib.sha256()
    with file.open("rb") as opened:
        for piece in iter(lambda: opened.read(1 << 20), b""):
            total.update(piece)
    return total.hexdigest()


class Kept:
    """An executable and its stamp, a file in the same folder with a line `FIELD VALUE` for each field."""

    def __init__(self, program: Path) -> None:
        self.program = program
        self.stamp = program.with_name(program.name + ".stamp")

    def read_stamp(self) -> dict[str, str]:
        """The fields of the stamp; none if there is no stamp or a field is missing."""
        try:
            lines = self.stamp.read_text(encoding="utf-8").splitlines()
        except (OSError, UnicodeDecodeError):
            return {}
        fields = dict(line.partition(" ")[::2] for line in lines)
        return fields if set(FIELDS) <= set(fields) else {}

    def is_made_from(self, sources: str) -> bool:
        """Whether the program is whole, and its stamp names these sources."""
        fields = self.read_stamp()
        try:
            return (
                fields.get("sources") == sources
                and os.access(self.program, os.X_OK)
                and digest_of(self.program) == fields["program"]
            )
        except OSError:
            return False

    def keep(self, made: Path, sources: str, commit: str, toolchain: str) -> None:
        """Moves a program to its place, with its stamp. Even after an interrupt, a stamp stands only beside the program that it names."""
        self.program.parent.mkdir(parents=True, exist_ok=True)
        with tempfile.TemporaryDirectory(dir=self.program.parent, prefix=".new-") as room:
            program, stamp = Path(room, "program"), Path(room, "stamp")
            shutil.copyfile(made, program)
            program.chmod(0o755)
            now = time.strftime("%Y-%m-%d %H:%M UTC", time.gmtime())
            values = (sources, digest_of(program), commit, toolchain, now)
            stamp.write_text("".join(f"{name} {value}\n" for name, value in zip(FIELDS, values)), encoding="utf-8")
            for file in (program, stamp):
                with file.open("rb") as opened:
                    os.fsync(opened.fileno())
            self.stamp.unlink(missing_ok=True)
            os.replace(program, self.program)
            os.replace(stamp, self.stamp)


class Mark:
    """Tells the launcher's shell script, without reading the sources, that they are those of the proved program.

    The file `watched` lists paths, and the mark has a digest of their states: the device, the number of the file, its size, and the time
    of its last change, which no program can set. The script trusts the mark only while all of these are the same. So a list that was cut, a
    folder that was exchanged, a copy in another place and a clock that was set back do not escape it. Without a mark each call reads the
    sources."""

    def __init__(self, program: Path) -> None:
        self.mark = program.with_name(program.name + ".unchanged")
        self.watched = program.with_name(program.name + ".watched")

    def make(self, top: Path, paths: Iterable[Path], is_unchanged: Callable[[], bool]) -> None:
        """Makes the mark, and keeps it only if the sources are still unchanged after that, so that no change escapes it."""
        # Where the folder cannot be written to, there is no mark, and each call reads the sources.
        with contextlib.suppress(OSError):
            listed = [os.fsencode(path) for path in paths]
            new = self.watched.with_name(self.watched.name + ".new")
            write(new, b"".join(path + b"\0" for path in listed))
            os.replace(new, self.watched)
            # An empty mark is in the folder before the state of the folder is taken.
            write(self.mark, b"")
            digest, step = state_of(os.fsencode(top), listed)
            time.sleep(step)
            if is_unchanged():
                write(self.mark, digest.encode() + b"\n")


def write(file: Path, contents: bytes) -> None:
    """Writes a file that stays after a power cut."""
    with file.open("wb") as opened:
        opened.write(contents)
        opened.flush()
        os.fsync(opened.fileno())


def state_of(top: bytes, paths: list[bytes]) -> tuple[str, float]:
    """A digest of the states of paths below a folder, as `find` prints them, and the step of the clock that their times come from."""
    total, is_coarse = hashlib.sha256(), True
    for path in paths:
        found = os.lstat(os.path.join(top, path))
        seconds, part = divmod(found.st_ctime_ns, 10**9)
        is_coarse = is_coarse and part == 0
        total.update(b"%d %d %d %d.%09d0 %s\0" % (found.st_dev, found.st_ino, found.st_size, seconds, part, path))
    return total.hexdigest(), COARSE_STEP if is_coarse else CLOCK_STEP
