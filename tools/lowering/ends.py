"""How the command ends: the programs that it starts, its folder, its standard streams, and signals that end it early."""
from __future__ import annotations

import contextlib
import os
import re
import shutil
import signal
import subprocess
import sys
import tempfile
import threading
from types import FrameType
from typing import Any, Iterator

STANDARD_OUTPUT, STANDARD_ERROR = 1, 2
SIGNALS = (signal.SIGINT, signal.SIGTERM, signal.SIGHUP)
CONTROL = re.compile("[\x00-\x1f\x7f]")


class Signalled(BaseException):
    """A signal ends the command."""

    def __init__(self, number: int) -> None:
        super().__init__(number)
        self.number = number


class Work:
    """What runs and what is on the disk for this command. The first signal ends all of it, and later ones change nothing.

    While `held` is above 0, something is made that is not in a list yet; then a signal waits until it is there."""

    def __init__(self) -> None:
        self.running: set[subprocess.Popen[str]] = set()
        self.made: set[str] = set()
        self.number = self.held = 0
        self.lock = threading.Lock()

    def listen(self) -> None:
        """From now on a signal ends the command, except one that the caller has told it to ignore."""
        for number in SIGNALS:
            if signal.getsignal(number) is not signal.SIG_IGN:
                signal.signal(number, self.note)

    def note(self, number: int, _frame: FrameType | None) -> None:
        """The handler of the signals."""
        ignore()
        self.number = number
        self.kill()
        if not self.held:
            raise Signalled(number)

    @contextlib.contextmanager
    def holding(self) -> Iterator[None]:
        """A part during which a signal waits."""
        with self.lock:
            self.held += 1
        try:
            yield
        finally:
            with self.lock:
                self.held -= 1
        self.check()

    def check(self) -> None:
        """Ends what a signal found half made."""
        if self.number:
            self.kill()
            raise Signalled(self.number)

    def start(self, command: list[str], **more: Any) -> subprocess.Popen[str]:
        """Starts a program."""
        self.check()
        with self.holding():
            process = subprocess.Popen(command, **more)
            self.running.add(process)
        return process

    def end(self, process: subprocess.Popen[str]) -> None:
        """Waits for a program, which is ended if it still runs."""
        if process.poll() is None:
            process.kill()
        process.wait()
        for pipe in (process.stdin, process.stdout, process.stderr):
            if pipe:
                with contextlib.suppress(OSError):
                    pipe.close()
        self.running.discard(process)

    def kill(self) -> None:
        """Kills the programs that run."""
        for process in list(self.running):
            with contextlib.suppress(OSError):
                process.kill()

    def folder(self) -> str:
        """A new folder, which is removed when the command ends."""
        with self.holding():
            path = tempfile.mkdtemp(prefix="hippo-lower-")
            self.made.add(path)
        return path

    def file_beside(self, path: str) -> tuple[int, str]:
        """A new file with a name that nobody can guess, in the folder of another one; it is removed when the command ends."""
        with self.holding():
            number, made = tempfile.mkstemp(prefix=".", suffix=".part", dir=os.path.dirname(path) or ".")
            self.made.add(made)
        return number, made

    def close(self) -> None:
        """Ends all programs, and removes what was made."""
        ignore()
        for process in list(self.running):
            self.end(process)
        for path in self.made:
            if os.path.isdir(path):
                shutil.rmtree(path, ignore_errors=True)
            else:
                with contextlib.suppress(OSError):
                    os.unlink(path)
        self.made.clear()


WORK = Work()


def ignore() -> None:
    """Ignores the signals that end the command."""
    for number in SIGNALS:
        signal.signal(number, signal.SIG_IGN)


def open_streams() -> set[int]:
    """Opens the null device in place of each standard stream that is closed, so that no file gets its number; their numbers."""
    closed = set()
    for number in range(STANDARD_ERROR + 1):
        try:
            os.fstat(number)
        except OSError:
            closed.add(number)
            null = os.open(os.devnull, os.O_RDWR)
            os.dup2(null, number)
            if null != number:
                os.close(null)
            os.set_inheritable(number, True)
    if sys.stdout is None:
        sys.stdout = open(STANDARD_OUTPUT, "w", encoding="utf-8", closefd=False)
    if sys.stderr is None:
        sys.stderr = open(STANDARD_ERROR, "w", encoding="utf-8", errors="backslashreplace", closefd=False)
    return closed


def say(line: str) -> bool:
    """Writes a line on standard error, and returns whether that was possible; control characters of names are escaped."""
    shown = CONTROL.sub(lambda found: f"\\x{ord(found[0]):02x}", f"lower: {line}")
    try:
        print(shown, file=sys.stderr, flush=True)
    except OSError:
        drop(STANDARD_ERROR)
        return False
    return True


def drop(number: int) -> None:
    """Sends what is left of a standard stream nowhere; otherwise Python would write it at the end, and fail again."""
    null = os.open(os.devnull, os.O_WRONLY)
    os.dup2(null, number)
    os.close(null)
