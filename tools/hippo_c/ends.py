"""How hippo-c ends: signals end it with all that it started, and a standard stream that cannot be written is a failure."""
from __future__ import annotations

import contextlib
import os
import shutil
import signal
import subprocess
import sys
import tempfile
import threading
import time
from collections.abc import Callable, Iterator
from io import TextIOWrapper
from typing import Any, NoReturn, cast

FAILED, INTERRUPTED = 2, 130
SIGNALS = (signal.SIGINT, signal.SIGTERM, signal.SIGHUP)
# How long a program that is told to end may take, and how long a signal of hippo-c may take after that of a program that it runs; seconds.
GRACE, MOMENT = 3.0, 0.3


class Signalled(BaseException):
    """A signal ends hippo-c. (At a KeyboardInterrupt Python itself would wait for a process, and give its number away.)"""

    def __init__(self, number: int) -> None:
        super().__init__(number)
        self.number = number


class State:
    """Whether a signal raises an exception now, and what has to be ended."""

    def __init__(self) -> None:
        self.works = self.closing = self.searches = False
        self.held, self.waiting = 0, 0
        self.lock = threading.Lock()
        self.processes: set[subprocess.Popen[bytes]] = set()


state = State()


def begin() -> None:
    """Prepares the streams and the signals; called before anything else is loaded."""
    open_streams()
    for number in SIGNALS:
        if signal.getsignal(number) != signal.SIG_IGN:  # as under nohup
            signal.signal(number, on_signal)


def open_streams() -> None:
    """Gives a closed standard stream a place, where each use of it fails; otherwise another file would get its number."""
    for number, flags in ((0, os.O_WRONLY), (1, os.O_RDONLY), (2, os.O_RDONLY)):
        try:
            os.fstat(number)
        except OSError:
            os.set_inheritable(os.open(os.devnull, flags), True)
    if sys.stdout is None:
        sys.stdout = open(1, "w", encoding="utf-8", closefd=False)
    if sys.stderr is None:
        sys.stderr = open(2, "w", encoding="utf-8", closefd=False)
    for stream in (sys.stdout, sys.stderr):
        cast(TextIOWrapper, stream).reconfigure(errors="surrogateescape")  # names of files need not be UTF-8


def on_signal(number: int, _frame: object) -> None:
    """Ends hippo-c. A search goes on with what it found, and is ended by the next signal; later signals are ignored."""
    if state.closing:
        return
    if state.held:
        state.waiting = number
        return
    if not state.works:
        os._exit(128 + number)
    if not state.searches or number != signal.SIGINT:
        state.closing = True
        tell_processes()
    state.searches = False
    raise Signalled(number)


def tell_processes() -> None:
    """Tells all processes to end, so that no thread waits for one."""
    with state.lock:
        for process in state.processes:
            signal_group(process, signal.SIGTERM)


@contextlib.contextmanager
def held() -> Iterator[None]:
    """Work that a signal does not interrupt; it comes after the work."""
    if threading.current_thread() is not threading.main_thread():
        yield
        return
    state.held += 1
    try:
        yield
    finally:
        state.held -= 1
    if state.waiting and not state.held:
        number, state.waiting = state.waiting, 0
        on_signal(number, None)


@contextlib.contextmanager
def working() -> Iterator[None]:
    """The work of a command, in a temporary folder of its own for all that it runs; nothing of this is left after it."""
    before = tempfile.tempdir, os.environ.get("TMPDIR")
    room = ""
    try:
        with held():
            room = new_room()
            tempfile.tempdir = os.environ["TMPDIR"] = room
            state.works, state.closing = True, False
        yield
    finally:
        state.closing = True
        end_processes()
        for _ in range(2):  # a process that was ended may have left a file meanwhile
            shutil.rmtree(room, ignore_errors=True)
        tempfile.tempdir = before[0]
        os.environ.pop("TMPDIR", None)
        if before[1] is not None:
            os.environ["TMPDIR"] = before[1]
        state.works = state.closing = False


def new_room() -> str:
    """A new temporary folder."""
    try:
        return tempfile.mkdtemp(prefix="hippo-c-")
    except OSError as error:
        raise OSError(error.errno, error.strerror, error.filename or "the temporary folder") from None


def started(command: list[str], **more: Any) -> subprocess.Popen[bytes]:
    """A process that is ended with hippo-c, with all that it starts itself."""
    with held():
        if state.closing:
            raise Signalled(signal.SIGTERM)
        process: subprocess.Popen[bytes] = subprocess.Popen(command, start_new_session=True, **more)
        with state.lock:
            state.processes.add(process)
    if state.closing:  # a thread started it meanwhile
        end(process)
        raise Signalled(signal.SIGTERM)
    return process


def has_ended(process: subprocess.Popen[bytes]) -> bool:
    """Whether a process has ended; its number stays its own."""
    try:
        return (
            process.returncode is not None
            or os.waitid(os.P_PID, process.pid, os.WEXITED | os.WNOHANG | os.WNOWAIT) is not None
        )
    except ChildProcessError:
        return True


def signal_group(process: subprocess.Popen[bytes], number: int) -> None:
    """Sends a signal to a process and to what it started, while its number is its own."""
    if process.returncode is None:
        with contextlib.suppress(ProcessLookupError, PermissionError):
            os.killpg(process.pid, number)


def end(process: subprocess.Popen[bytes]) -> None:
    """Ends a process, and what it started: it may clean up, for a short time."""
    runs = process.returncode is None
    signal_group(process, signal.SIGTERM)
    wait_for(lambda: has_ended(process))
    signal_group(process, signal.SIGKILL)
    process.wait()
    if runs:
        wait_for(lambda: not has_group(process.pid))
    state.processes.discard(process)


def wait_for(holds: Callable[[], bool]) -> None:
    """Waits for a state, for a short time."""
    until = time.monotonic() + GRACE
    while not holds() and time.monotonic() < until:
        time.sleep(0.002)


def has_group(number: int) -> bool:
    """Whether something that an ended process started is still there."""
    try:
        os.killpg(number, 0)
    except OSError:
        return False
    return True


def end_processes() -> None:
    """Ends all processes that still run."""
    tell_processes()
    with state.lock:
        left = list(state.processes)
    for process in left:
        end(process)


def complain(text: str) -> None:
    """Writes a line to standard error, if that is possible."""
    with contextlib.suppress(OSError, ValueError):
        print(text, file=sys.stderr, flush=True)


def leave(code: int) -> NoReturn:
    """Ends hippo-c, also where Python's own end would fail: 2 in place of an answer that could not be written."""
    for stream in (sys.stdout, sys.stderr):
        try:
            stream.flush()
        except (OSError, ValueError):
            code = code if code > FAILED else FAILED
    os._exit(code)
