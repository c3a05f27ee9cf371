"""`./hippo --build`: proves the crates that the program depends on, and builds the program."""

from __future__ import annotations

import contextlib
import fcntl
import os
import re
import shutil
import signal
import subprocess
import sys
import tempfile
import time
from pathlib import Path
from typing import Iterator

import crate_schedule
from kept import Kept
from progress import Meter, Plan, duration, minutes, write_weights
from sources import PROGRAM, Failed, Sources

# What one proof may take, in bytes of memory.
MEMORY = 4 << 30
# A disk with less than this is full, in bytes.
FULL = 64 << 20
# The seconds between two looks at the proofs.
STEP = 1.0
# What a copy of a crate leaves out: what the toolchain made, and the edits that only the gate tries.
LEFT_OUT = ("out", "must-fail")
ENDED = re.compile(r"^rt: (\w+) (?:proved$|is kept: )", re.M)
WAITS = re.compile(r"^rt: (\w+): another run on this machine is proving the same", re.M)
UNPROVED = re.compile(r"^rt: (\w+) NOT PROVED", re.M)


def say(text: str) -> None:
    """Writes a line for the user, unless standard error is closed or full."""
    with contextlib.suppress(OSError):
        if sys.stderr is not None:
            print(f"hippo: {text}", file=sys.stderr, flush=True)


def processors() -> int:
    """How many crates are proved side by side: one for each processor, if there is enough memory."""
    try:
        free = re.search(r"^MemAvailable:\s*(\d+) kB", Path("/proc/meminfo").read_text(encoding="utf-8"), re.M)
    except OSError:
        free = None
    count = len(os.sched_getaffinity(0))
    return max(1, min(count, (int(free[1]) << 10) // MEMORY)) if free else count


@contextlib.contextmanager
def alone(file: Path) -> Iterator[None]:
    """Waits until no other build works in this folder, and lets no other build in."""
    file.parent.mkdir(parents=True, exist_ok=True)
    with file.open("a+", encoding="utf-8") as lock:
        try:
            fcntl.flock(lock, fcntl.LOCK_EX | fcntl.LOCK_NB)
        except BlockingIOError:
            lock.seek(0)
            say(f"another --build (process {lock.read().strip()}) works in this folder; waiting for its end")
            fcntl.flock(lock, fcntl.LOCK_EX)
        lock.truncate(0)
        lock.write(str(os.getpid()))
        lock.flush()
        yield


def copy_crates(sources: Sources, room: Path) -> None:
    """Copies the program's crate and those that it depends on, as a repository of their own."""
    (room / ".git").mkdir()
    shutil.copyfile(sources.top / "HANDLES", room / "HANDLES")
    lines = crate_schedule.read_lines((sources.top / "crates.txt").read_text(encoding="utf-8"))
    listed = [f"{line}\n" for line in lines if line.partition(":")[0].split()[0] in sources.crates]
    (room / "crates.txt").write_text("".join(listed), encoding="utf-8")
    for name in sources.crates:
        for part in (sources.top / "crates" / name).iterdir():
            to = room / "crates" / name / part.name
            if part.name in LEFT_OUT:
                continue
            if part.is_dir():
                shutil.copytree(part, to)
            else:
                to.parent.mkdir(parents=True, exist_ok=True)
                shutil.copyfile(part, to)


class Build:
    """One run of `--build`."""

    def __init__(self, rt: str, sources: Sources, jobs: int) -> None:
        self.rt, self.sources, self.jobs = rt, sources, jobs
        self.plan = Plan(sources, jobs)
        self.log = sources.top / "out" / "build.log"
        self.start = time.monotonic()
        self.ended: dict[str, float] = {}
        self.began: dict[str, float] = {}
        self.measured: dict[str, float] = {}
        self.waits: set[str] = set()

    def prove(self, room: Path) -> Path:
        """Proves every crate in a copy, except those whose proof an earlier run kept, builds the program and tries it; returns its path."""
        copy_crates(self.sources, room)
        status = self.run(room)
        unproved = UNPROVED.search(self.text())
        if shutil.disk_usage(room).free < FULL:
            raise Failed(f"not built: the disk of {room} is full")
        if unproved or status:
            why = f"{unproved[1]} is not proved" if unproved else f"rt ci ended with {status}"
            raise Failed(f"not built: {why}; {self.log} has the whole log")
        return room / "crates" / PROGRAM / "out" / PROGRAM

    def text(self) -> str:
        """What the toolchain wrote so far."""
        return self.log.read_text(encoding="utf-8", errors="replace")

    def run(self, room: Path) -> int:
        """Runs the toolchain's gate in the copy, reports progress until it ends, and returns its exit code."""
        environment = {**os.environ, "RT_JOBS": str(self.jobs)}
        with self.log.open("wb") as log:
            ran = subprocess.Popen(
                [self.rt, "ci"],
                cwd=room,
                env=environment,
                stdin=subprocess.DEVNULL,
                stdout=log,
                stderr=log,
                start_new_session=True,
            )
        meter = Meter(ran.pid)
        try:
            while ran.poll() is None:
                time.sleep(STEP)
                meter.look()
                self.measured, self.began = meter.seconds(), meter.began
                self.report()
        finally:
            if ran.poll() is None:
                os.killpg(ran.pid, signal.SIGTERM)
                ran.wait()
            self.report(is_end=True)
        return ran.returncode

    def progress(self) -> str:
        """What is proved, the time so far, and an estimate of the time that is left."""
        now = time.monotonic()
        took = {name: end - self.began[name] for name, end in self.ended.items() if name in self.began}
        running = {name: now - start for name, start in self.began.items() if name not in self.ended}
        left = self.plan.remaining(took, frozenset(self.ended) - frozenset(took), running)
        done = len(self.ended) == len(self.sources.crates)
        what = (
            "all crates proved, the program is compiled and tried"
            if done
            else f"{len(self.ended)} of {len(self.sources.crates)} crates proved"
        )
        return (
            f"{what}, {duration(now - self.start)} so far, about {minutes(left) if left >= 60 else duration(left)} left"
        )

    def report(self, is_end: bool = False) -> None:
        """Reports progress: on a terminal in one line that it rewrites, otherwise in a line for each change."""
        text, before = self.text(), len(self.ended)
        for name in set(WAITS.findall(text)) - self.waits:
            say(f"another run on this machine is proving {name}; waiting for it")
            self.waits.add(name)
        for name in ENDED.findall(text):
            if name in self.plan.weights:
                self.ended.setdefault(name, time.monotonic())
        line = f"hippo: {self.progress()}"
        if sys.stderr.isatty():
            print(f"\r{line}\033[K", end="\n" if is_end else "", file=sys.stderr, flush=True)
        elif len(self.ended) > before:
            print(line, file=sys.stderr, flush=True)


def interrupted(number: int, _frame: object) -> None:
    """Ends the launcher by an exception, so that the processes that it started end too."""
    raise SystemExit(128 + number)


def build(rt: str, sources: Sources, kept: Kept, toolchain: str, jobs: int, weighs: bool) -> int:
    """Proves and builds the program if it is not built from these sources, and returns the exit code."""
    signal.signal(signal.SIGINT, interrupted)
    with alone(sources.top / "out" / "build.lock"):
        digest = sources.digest()
        if kept.is_made_from(digest):
            say(f"{kept.program} is proved and built from these sources")
            return 0
        work = Build(rt, sources, jobs)
        say(
            f"proving {len(sources.crates)} crates, {jobs} side by side, and building; about {minutes(work.plan.whole)} if no proof is kept"
        )
        with tempfile.TemporaryDirectory(prefix="hippo-build-") as room:
            try:
                made = work.prove(Path(room))
            except SystemExit:
                say(
                    f"interrupted; {len(work.ended)} of {len(sources.crates)} crates are proved and kept, and ./hippo --build goes on there"
                )
                raise
            if sources.digest() != digest:
                raise Failed(
                    "not built: a source changed meanwhile; what is proved is kept, and ./hippo --build goes on there"
                )
            kept.keep(made, digest, sources.commit(), toolchain)
        if weighs:
            write_weights(sources, work.measured)
        say(f"proved and built in {duration(time.monotonic() - work.start)}: {kept.program}")
        return 0
