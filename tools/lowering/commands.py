"""Runs the programs of clang and LLVM, and gives the exit codes of `lower`."""
import contextlib
import os
import subprocess
import sys
import threading

from .ends import WORK
from .reads import READS

# The scheme of hippo's own exit codes, and beyond it those of sysexits.h. A signal adds its number to the last.
DONE, USAGE, NO_FILE, READ_FAULT, WRITE_FAULT, REFUSED = 0, 1, 2, 3, 4, 5
NOT_INSTALLED, INTERNAL_ERROR, BY_SIGNAL = 69, 70, 128
# The time for one run of clang or of a tool of LLVM. Some of them do not end, such as opt on debug information that leads in a circle.
SECONDS = 600
# Names the variable that bounds how many of them run at once.
JOBS = "HIPPO_JOBS"
TELLING = threading.Lock()


class Failure(Exception):
    """The command cannot be carried out; the message says why, and `code` is the exit code."""

    def __init__(self, message: str, code: int) -> None:
        super().__init__(message)
        self.code = code


def set_jobs(count: int | None) -> None:
    """Bounds the number of programs that run at once, also in the commands that this one starts."""
    if count:
        os.environ[JOBS] = str(count)


def jobs() -> int:
    """The number of programs that run at once: one for each processor, if nothing else is said."""
    given = os.environ.get(JOBS, "")
    return int(given) if given.isdigit() and int(given) else os.cpu_count() or 1


def tell(said: str) -> None:
    """Writes what a program said to standard error as one piece: those that run side by side do not mix."""
    if said:
        with TELLING, contextlib.suppress(OSError, ValueError):
            sys.stderr.buffer.write(said.encode("latin-1"))
            sys.stderr.flush()


def output_of(command: list[str], text: str | None = None, seconds: float = SECONDS) -> str:
    """What a command writes to standard output; its messages go to standard error."""
    given = subprocess.DEVNULL if text is None else subprocess.PIPE
    try:
        pipes = {"stdin": given, "stdout": subprocess.PIPE, "stderr": subprocess.PIPE}
        process = WORK.start(READS.noting(command), encoding="latin-1", **pipes)
    except FileNotFoundError:
        raise Failure(
            f"{command[0]} is not installed (Debian: apt-get install clang-19 llvm-19)", NOT_INSTALLED
        ) from None
    try:
        output, said = process.communicate(text, timeout=seconds)
    except subprocess.TimeoutExpired:
        raise Failure(f"{command[0]} did not end within {seconds:g} seconds", REFUSED) from None
    finally:
        WORK.end(process)
    WORK.check()
    tell(said)
    if process.returncode:
        code = REFUSED if process.returncode > 0 else INTERNAL_ERROR
        raise Failure(f"{command[0]} ended with {process.returncode}", code)
    return output
