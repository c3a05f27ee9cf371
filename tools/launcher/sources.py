"""The sources of the program: the crates that it depends on, and a digest of their contents."""

from __future__ import annotations

import hashlib
import os
import shutil
import subprocess
from pathlib import Path

import crate_schedule

PROGRAM = "hippo"
LISTS = ("crates.txt", "HANDLES")
CODE = ("src",)
WHOLE = ("src", "specs", "proofs")


class Failed(Exception):
    """A reason why the launcher cannot answer, as one line for the user."""


def toolchain() -> tuple[str, str]:
    """The path of `rt`, and the line that names its kit."""
    rt = shutil.which("rt")
    if rt is None:
        raise Failed("the Rattle toolchain is missing: there is no rt on PATH; README names the version")
    try:
        ran = subprocess.run([rt, "version"], stdin=subprocess.DEVNULL, capture_output=True, text=True, check=True)
    except (OSError, subprocess.CalledProcessError):
        raise Failed(f"the Rattle toolchain does not work: {rt} version fails") from None
    return rt, ran.stdout.strip()


def files_below(folder: Path) -> list[Path]:
    """Each file at or below the folder, in an order that depends on names alone; none if there is no folder. There are no links."""
    found: list[Path] = []
    refuse_link(folder)
    for path, folders, names in os.walk(folder):
        folders.sort()
        for name in (*folders, *names):
            refuse_link(Path(path, name))
        found += [Path(path, name) for name in sorted(names)]
    return found


def refuse_link(path: Path) -> None:
    """Refuses a link, since what it leads to can change while the link does not."""
    if path.is_symlink():
        raise Failed(f"{path} is a link; each source must be a file in its own folder")


class Sources:
    """The folder of the repository, and the crates that its program depends on."""

    def __init__(self, top: Path) -> None:
        self.top = top
        try:
            self.libraries = crate_schedule.read_crates((top / "crates.txt").read_text(encoding="utf-8"))
            self.crates = crate_schedule.below(self.libraries, PROGRAM)
        except (OSError, UnicodeDecodeError, crate_schedule.Refused) as fault:
            raise Failed(f"crates.txt does not list the crates of {PROGRAM}: {fault}") from None

    @property
    def program_folder(self) -> Path:
        """The folder of the crate that has `main`."""
        return self.top / "crates" / PROGRAM

    @property
    def made(self) -> Path:
        """Where the toolchain puts the program."""
        return self.program_folder / "out" / PROGRAM

    def digest(self, parts: tuple[str, ...] = WHOLE) -> str:
        """A digest of the contents of these parts of the crates, and of the files that list dependencies."""
        found = [self.top / name for name in LISTS]
        for path in (*found, self.top / "crates"):
            refuse_link(path)
        for crate in sorted(self.crates):
            refuse_link(self.top / "crates" / crate)
            for part in parts:
                found += files_below(self.top / "crates" / crate / part)
        total = hashlib.sha256()
        for file in found:
            try:
                contents = file.read_bytes()
            except OSError as fault:
                raise Failed(f"a source cannot be read: {fault}") from None
            name = os.fsencode(file.relative_to(self.top))
            total.update(b"%d %s %d " % (len(name), name, len(contents)))
            total.update(contents)
        return total.hexdigest()

    def watched(self) -> list[Path]:
        """Each file and folder whose state changes when a source changes, is new or is gone, as paths below the top."""
        folders = [self.top / "crates" / crate / part for crate in self.crates for part in WHOLE]
        found = [self.top / name for name in (*LISTS, "crates", *(f"crates/{crate}" for crate in self.crates))]
        for folder in folders:
            for path, _, names in os.walk(folder):
                found += [Path(path), *(Path(path, name) for name in names)]
        return [path.relative_to(self.top) for path in found]

    def commit(self) -> str:
        """The commit of the clone, with `with changes` after it if files differ from it; `unknown` outside a clone."""

        def git(*words: str) -> str:
            ran = subprocess.run(["git", "-C", str(self.top), *words], capture_output=True, text=True, check=True)
            return ran.stdout.strip()

        try:
            if Path(git("rev-parse", "--show-toplevel")).resolve() != self.top:
                return "unknown"
            changed = git("status", "--porcelain", "--untracked-files=no")
            return git("rev-parse", "HEAD") + (" with changes" if changed else "")
        except (OSError, subprocess.CalledProcessError):
            return "unknown"
