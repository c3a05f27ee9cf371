"""Shows progress in one line of a terminal; nothing if standard error is not a terminal."""
import contextlib
import os
import subprocess
import sys
import time
from collections.abc import Iterable, Iterator
from typing import TextIO, TypeVar

EVERY = 0.2
Item = TypeVar("Item")


class Progress:
    """The current line of progress; it is wiped before anything else is written."""

    def __init__(self, stream: TextIO = sys.stderr, shown: bool | None = None) -> None:
        self.stream = stream
        self.shown = stream.isatty() if shown is None else shown
        self.last, self.width, self.step, self.began = 0.0, 0, "", time.monotonic()

    def say(self, text: str) -> None:
        """Shows the step that begins."""
        self.step = text
        self.show(text)

    def show(self, text: str) -> None:
        """Shows a text in place of the current one."""
        if not self.shown:
            return
        with contextlib.suppress(OSError):
            self.stream.write("\r" + f"hippo-c: {text}".ljust(self.width)[:100])
            self.stream.flush()
        self.width, self.last = len(text) + 9, time.monotonic()

    def wipe(self) -> None:
        """Removes the current text."""
        if self.shown and self.width:
            with contextlib.suppress(OSError):  # the terminal may be gone
                self.stream.write("\r" + " " * self.width + "\r")
                self.stream.flush()
            self.width = 0

    def often(self) -> bool:
        """Whether it is time to show something again."""
        return self.shown and time.monotonic() - self.last >= EVERY

    @contextlib.contextmanager
    def growing(self, step: str) -> Iterator[None]:
        """A step that writes a file; `watch` shows its size."""
        self.say(step)
        self.began = time.monotonic()
        yield

    def watch(self, process: subprocess.Popen[bytes], path: str) -> None:
        """Shows the size of the file that a command writes, until the command ends."""
        while self.shown:
            with contextlib.suppress(subprocess.TimeoutExpired):
                process.wait(EVERY)
                return
            with contextlib.suppress(OSError):
                size = os.path.getsize(path)
                self.show(f"{self.step}: {size / 1e6:.1f} MB, {time.monotonic() - self.began:.0f} s")

    def counted(self, items: Iterable[Item], step: str, what: str) -> Iterator[Item]:
        """The items, with their count shown now and then."""
        for number, item in enumerate(items, 1):
            if number % 4096 == 0 and self.often():
                self.show(f"{step}: {number:,} {what}")
            yield item
