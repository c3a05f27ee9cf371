"""The unproved build: the program as `rt try` compiles it, with checks at run time and without any proof.

`rt try` compiles the program and runs it once, in a folder of its own and within limits. Here it runs the program on an endless loop,
and the launcher copies the executable meanwhile. The copy then answers every call, in the caller's own folder and without limits.
"""

from __future__ import annotations

import contextlib
import fcntl
import os
import shutil
import signal
import subprocess
import tempfile
import time
from pathlib import Path
from typing import Callable, Iterator

from kept import Kept
from sources import CODE, Failed, Sources

ENDLESS = "define i32 @main() {\nentry:\n  br label %turn\nturn:\n  br label %turn\n}\n"
# The seconds between two looks at the processes of `rt try`.
STEP = 0.05
# A report of a check at run time goes to a file, so that it does not mix with the output of the program.
CHECKS = "log_path={}/report"
# A disk with less than this is full, in bytes.
FULL = 64 << 20


@contextlib.contextmanager
def locked(file: Path, waits: Callable[[], None]) -> Iterator[bool]:
    """Lets one process at a time through, and yields whether it had to wait; it calls `waits` before it waits."""
    file.parent.mkdir(parents=True, exist_ok=True)
    with file.open("w") as opened:
        waited = False
        try:
            fcntl.flock(opened, fcntl.LOCK_EX | fcntl.LOCK_NB)
        except BlockingIOError:
            waits()
            fcntl.flock(opened, fcntl.LOCK_EX)
            waited = True
        yield waited


def running(words: list[str], folder: Path) -> Path | None:
    """The program below the folder that some process runs with exactly these words, directly or through a loader."""
    for process in Path("/proc").iterdir():
        with contextlib.suppress(OSError):
            given = [os.fsdecode(word) for word in (process / "cmdline").read_bytes().split(b"\0")[:-1]]
            before, after = given[: -len(words)], given[-len(words) :]
            if before and after == words and folder in Path(before[-1]).parents and os.access(before[-1], os.X_OK):
                return Path(before[-1])
    return None


def make(rt: str, sources: Sources, kept: Kept, toolchain: str) -> None:
    """Has `rt try` compile the program, and keeps a copy of it."""
    digest = sources.digest(CODE)
    with tempfile.TemporaryDirectory(prefix="hippo-") as room:
        endless = Path(room, "endless.ll")
        endless.write_text(ENDLESS, encoding="utf-8")
        words = ["run", f"endless-{os.getpid()}.ll"]
        log = Path(room, "log")
        with log.open("wb") as said:
            tried = subprocess.Popen(
                [rt, "try", "--data", f"{words[1]}={endless}", "--", *words],
                cwd=sources.program_folder,
                stdin=subprocess.DEVNULL,
                stdout=said,
                stderr=said,
                env={**os.environ, "TMPDIR": room},
                start_new_session=True,
            )
            try:
                copy = copy_of(tried, words, Path(room, "program"))
            finally:
                end(tried)
        if copy is None:
            raise Failed(not_made(log, kept.program.parent))
        if sources.digest(CODE) != digest:
            raise Failed("a source changed while the program was compiled; give the command again")
        kept.keep(copy, digest, sources.commit(), toolchain)


def not_made(log: Path, folder: Path) -> str:
    """Why there is no program; copies the output of `rt try` into this folder."""
    if shutil.disk_usage(log.parent).free < FULL:
        return f"the disk of {log.parent.parent} is full"
    folder.mkdir(parents=True, exist_ok=True)
    shutil.copyfile(log, folder / "log")
    return f"the sources do not compile; {folder / 'log'} has the errors"


def copy_of(tried: subprocess.Popen[bytes], words: list[str], to: Path) -> Path | None:
    """A copy of the program that `rt try` runs, or nothing if it ends without running one."""
    while tried.poll() is None:
        found = running(words, to.parent)
        if found is not None:
            with contextlib.suppress(FileNotFoundError, ProcessLookupError):
                to.write_bytes(found.read_bytes())
                return to
        time.sleep(STEP)
    return None


def end(tried: subprocess.Popen[bytes]) -> None:
    """Ends `rt try`, which then ends what it started and removes its own files."""
    if tried.poll() is None:
        tried.terminate()
        try:
            tried.wait(timeout=10)
        except subprocess.TimeoutExpired:
            os.killpg(tried.pid, signal.SIGKILL)
            tried.wait()


def answer(program: Path, words: list[str], build: str) -> int:
    """Runs the unproved program on the words, and returns its exit code."""
    with tempfile.TemporaryDirectory(prefix="hippo-") as room:
        # Ctrl-C reaches the program too, and the way it ends decides the exit code.
        signal.signal(signal.SIGINT, lambda *_: None)
        environment = {**os.environ, "ASAN_OPTIONS": CHECKS.format(room)}
        # The words may name files that the caller opened, as /dev/fd/63 of a shell's <(..).
        ran = subprocess.Popen([str(program), *words], env=environment, close_fds=False)
        try:
            status = ran.wait()
        finally:
            if ran.poll() is None:
                ran.terminate()
        reports = "".join(file.read_text(encoding="utf-8", errors="replace") for file in sorted(Path(room).iterdir()))
    if "failed to allocate" in reports or "out-of-memory" in reports:
        raise Failed(f"the unproved build needs more memory than this process may take; {build}")
    if reports:
        raise Failed(f"the unproved build stopped at a check that it makes as it runs; {build}")
    if status < 0:
        with contextlib.suppress(OSError):
            signal.signal(-status, signal.SIG_DFL)
            os.kill(os.getpid(), -status)
        return 128 - status
    return status
