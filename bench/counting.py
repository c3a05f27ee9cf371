"""Instructions of `run`, `record` and `check` for an entry of a trace, which valgrind's callgrind counts: they do not depend on other work."""

from __future__ import annotations

import re
import shutil
import subprocess
from collections.abc import Callable
from dataclasses import dataclass
from pathlib import Path

import native
from measuring import Command, Hippo, Missed, figures, leave_out, show

BENCH = Path(__file__).resolve().parent
CALLGRIND = ("valgrind", "--tool=callgrind", "--callgrind-out-file=/dev/null")


@dataclass(frozen=True)
class Counted:
    """A program, how its text and the numbers that it reads for a size are found, a short and a long size, and how many instructions
    each command may take for an entry."""

    text: Callable[[], str]
    numbers: Callable[[int], list[int]]
    sizes: tuple[int, int]
    most: dict[str, int]


def of_loop(name: str, sizes: tuple[int, int], most: dict[str, int]) -> Counted:
    """A loop of this folder, which reads the number of its turns."""
    return Counted(lambda: (BENCH / f"{name}.ll").read_text(encoding="ascii"), lambda size: [size], sizes, most)


def of_c(name: str, sizes: tuple[int, int], check: int) -> Counted:
    """A lowered C program."""
    return Counted(lambda: native.text_of(name), lambda size: native.numbers_of(name, size), sizes, {"check": check})


PROGRAMS = {
    "store.ll": of_loop("store", (2_000, 22_000), {"check": 550}),
    "flush.ll": of_loop("flush", (1_000, 11_000), {"record": 220, "check": 330}),
    "log.c": of_c("log", (20, 320), 1_150),
    "allocator.c": of_c("allocator", (20, 220), 1_000),
    "undo.c": of_c("undo", (100, 1_100), 1_600),
    "store.c": of_c("store", (200, 4_200), 2_500),
}


def instructions(command: Command) -> int:
    """The instructions of one run."""
    done = subprocess.run(
        [*CALLGRIND, *command.words],
        stdin=subprocess.DEVNULL,
        stdout=subprocess.DEVNULL,
        stderr=subprocess.PIPE,
        check=False,
    )
    counted = re.search(rb"Collected : (\d+)", done.stderr)
    if done.returncode or counted is None:
        raise Missed(f"callgrind ended with code {done.returncode}")
    return int(counted[1])


def entries_of(trace: str) -> int:
    """How many entries a trace has."""
    with open(trace, "rb") as lines:
        return sum(1 for _ in lines)


def of_program(hippo: Hippo, name: str) -> None:
    """What one entry more costs each command. A count is the difference between a long and a short input, so that the start does not
    count."""
    program = PROGRAMS[name]
    path = hippo.file(f"counted.{name}.ll", program.text())
    sizes = [program.numbers(size if size < 1000 else hippo.size(size)) for size in program.sizes]
    traces = [hippo.recorded(path, *numbers) for numbers in sizes]
    few, many = map(entries_of, traces)
    for command in ("run", "record", "check"):
        given = [[trace] if command == "check" else list(map(str, numbers)) for trace, numbers in zip(traces, sizes)]
        short, long = (instructions(hippo.command(command, path, *words)) for words in given)
        counts = f"{long - short:,} for {many - few:,}"
        title = f"{command}: instructions an entry, {name}"
        show(title, (long - short) / (many - few), most=program.most.get(command), basis=counts, form=".0f")


def measure(hippo: Hippo) -> None:
    """All figures of this part."""
    if shutil.which(CALLGRIND[0]) is None:
        leave_out("instructions", ["valgrind"])
        return
    for name in PROGRAMS:
        figures(f"instructions, {name}", of_program, hippo, name)
