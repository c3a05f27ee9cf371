"""Times and peaks of processes, and the lines of the figures."""

from __future__ import annotations

import contextlib
import math
import os
import resource
import subprocess
import sys
import time
from collections.abc import Callable
from dataclasses import dataclass

MIB = 1 << 20
# What a process may take: seconds of processor time, and bytes of memory if it is hippo at full size.
MOST_SECONDS = 120
MOST_MEMORY = 4 << 30


class Missed(Exception):
    """A command ended in an unexpected way."""


@dataclass(frozen=True)
class Command:
    """A command with the files of its output and its input, the exit code that it must end with, and the bytes that it may take."""

    words: tuple[str, ...]
    out: str = os.devnull
    code: int = 0
    memory: int = resource.RLIM_INFINITY
    input: str = os.devnull


def started(command: Command) -> subprocess.Popen[bytes]:
    """The process of a command."""

    def limit() -> None:
        resource.setrlimit(resource.RLIMIT_CPU, (MOST_SECONDS, MOST_SECONDS))
        resource.setrlimit(resource.RLIMIT_AS, (command.memory, command.memory))

    with open(command.out, "wb") as out, open(command.input, "rb") as given:
        return subprocess.Popen(command.words, stdin=given, stdout=out, stderr=subprocess.DEVNULL, preexec_fn=limit)


def require(command: Command, code: int) -> None:
    """Raises if a command ended in an unexpected way."""
    if code != command.code:
        how = f"after {MOST_SECONDS} s" if code in (-24, -9) else f"with code {code}"
        raise Missed(f"{' '.join(os.path.basename(word) for word in command.words[:3])} ended {how}")


def spent(command: Command) -> float:
    """The processor time of one run in seconds, user and system together."""
    process = started(command)
    _, status, used = os.wait4(process.pid, 0)
    process.returncode = os.waitstatus_to_exitcode(status)
    require(command, process.returncode)
    return float(used.ru_utime + used.ru_stime)


def times(runs: int, *commands: Command) -> list[float]:
    """The least time of each command, since other work on the machine only adds to a time. The commands run in turn, so that this work
    affects all of them."""
    taken: list[list[float]] = [[] for _ in commands]
    for _ in range(runs):
        for found, command in zip(taken, commands):
            found.append(spent(command))
    return [min(found) for found in taken]


def peak(command: Command) -> float:
    """The peak of a run's memory in MB, which is read every 2 milliseconds until the run ends."""
    high = 0
    process = started(command)
    while process.poll() is None:
        with contextlib.suppress(OSError):  # the process may end between the poll and the read
            with open(f"/proc/{process.pid}/status", encoding="ascii", errors="replace") as file:
                high = max([high, *(int(line.split()[1]) for line in file if line.startswith("VmHWM:"))])
        time.sleep(0.002)
    require(command, process.returncode)
    return high / 1000


def show(
    name: str,
    measured: float,
    least: float | None = None,
    most: float | None = None,
    basis: str = "",
    form: str = ".2f",
) -> None:
    """Prints a figure: its name, the measured value, the goal if there is one, and the values that it comes from."""
    goal = f"at least {least:g}" if least is not None else f"at most {most:g}" if most is not None else ""
    missed = least is not None and measured < least or most is not None and measured > most
    print(f"{name:<66} {measured:>8{form}}  {goal:<13} {'missed' if missed else '':<6}  {basis}".rstrip(), flush=True)


def show_missed(name: str, fault: Missed) -> None:
    """Prints a figure that could not be taken."""
    print(f"{name:<66} {'-':>8}  {'':<13} missed  {fault}", flush=True)


def leave_out(what: str, missing: list[str]) -> None:
    """Says that some figures are left out."""
    print(f"{what}: left out, {', '.join(missing)} is not installed", flush=True)


def seconds(*values: float) -> str:
    """Times as the basis of a figure."""
    return ", ".join(f"{value:.4f} s" for value in values)


def exponent(sizes: list[int], taken: list[float]) -> float:
    """The exponent by which times grow with sizes: the larger one of the whole range and of its last part."""
    whole = math.log(taken[-1] / taken[0]) / math.log(sizes[-1] / sizes[0])
    last = math.log(taken[-1] / taken[-2]) / math.log(sizes[-1] / sizes[-2])
    return max(whole, last)


class Hippo:
    """The program that is measured, with a folder for its files."""

    def __init__(self, program: str, folder: str, runs: int, scale: float) -> None:
        self.program, self.folder, self.runs, self.scale = program, folder, runs, scale

    def size(self, number: int) -> int:
        """A size of the figures, scaled."""
        return max(int(number * self.scale), 2)

    def command(self, name: str, *words: object, out: str = os.devnull, code: int = 0) -> Command:
        """A command of hippo."""
        memory = MOST_MEMORY if self.scale == 1 else resource.RLIM_INFINITY
        return Command((self.program, name, *map(str, words)), out, code, memory)

    def file(self, name: str, text: str) -> str:
        """A file with this text."""
        path = f"{self.folder}/{name}"
        with open(path, "w", encoding="ascii") as file:
            file.write(text)
        return path

    def recorded(self, text: str, *numbers: int, code: int = 0) -> str:
        """The trace of a run, in a file."""
        name = f"{self.folder}/{os.path.basename(text)}.{'.'.join(map(str, numbers[:3]))}.trace"
        if not os.path.exists(name):
            spent(self.command("record", text, *numbers, out=name, code=code))
        return name


def figures(name: str, measure: Callable[..., None], *words: object) -> None:
    """Takes some figures. If a command ends in an unexpected way, a line says so, and the caller goes on with other figures."""
    try:
        measure(*words)
    except Missed as fault:
        show_missed(name, fault)
    except OSError as fault:
        sys.exit(f"bench: {fault}")
