"""Builds a file of random programs natively and by tools/lower, runs each program, and compares."""
from __future__ import annotations

import contextlib
import glob
import os
import shutil
import subprocess
import sys
from collections.abc import Iterator
from typing import Any, NamedTuple

from .in_process import Lowering
from .judge import Addresses, Judge
from .program import File, make_program

TOOLS = os.path.dirname(os.path.dirname(os.path.dirname(os.path.abspath(__file__))))
sys.path.insert(0, TOOLS)
from hippo_c.native import Engine  # noqa: E402
from hippo_c.program import Program as LoweredProgram  # noqa: E402
from hippo_c.trouble import Trouble  # noqa: E402

LEVELS = ["-O0", "-O1", "-O2", "-O3"]
NATIVE = ["clang-19", "-w", "-fwrapv", "-fno-strict-aliasing", "-DNATIVE", f"-I{TOOLS}"]
LOWER = ["--single-thread", "--non-temporal", "--array-bound", "1K"]
LOWERING = Lowering()
NATIVE_FILES = [f"{TOOLS}/external_functions.c", f"{TOOLS}/tests/random_c/libpmem_copies.c"]


class Found(NamedTuple):
    """What is wrong with a program at a level."""

    seed: int
    level: str
    text: str


def output_of(command: list[str], **more: Any) -> str:
    """What a command writes; it must end with 0."""
    done = subprocess.run(command, capture_output=True, encoding="latin-1", check=False, **more)
    if done.returncode:
        raise RuntimeError(f'{" ".join(command[:4])} .. ended with {done.returncode}: {done.stderr[-2000:]}')
    return str(done.stdout)


class Bundle:
    """Programs of several seeds in one file."""

    def __init__(self, seeds: list[int], folder: str, hippo: str, keeps: bool = False) -> None:
        self.file = File([make_program(seed) for seed in seeds])
        self.hippo, self.stem, self.keeps = hippo, os.path.join(folder, f"{seeds[0]}"), keeps
        self.numbers = list(map(str, self.file.numbers))
        with open(f"{self.stem}.c", "w", encoding="ascii") as file:
            file.write(self.file.text)

    def native_output(self, level: str) -> str:
        """What the programs print natively."""
        output_of([*NATIVE, level, "-o", f"{self.stem}.native", f"{self.stem}.c", *NATIVE_FILES, "-lm"])
        return output_of([f"{self.stem}.native"], input="\n".join(self.numbers))

    def words(self, level: str) -> list[str]:
        """The words for tools/lower."""
        return [*LOWER, level, f"{self.stem}.c", "--", "-w"]

    def lowered(self, level: str) -> str:
        """The file of the lowered text."""
        text = LOWERING.text(self.words(level))
        with open(f"{self.stem}{level}.ll", "w", encoding="latin-1") as file:
            file.write(text)
        self.addresses = Addresses(text, self.file.objects)
        return file.name

    def differences(self, level: str, output: str, with_engine: bool = False) -> list[Found]:
        """What differs at a level from the native output and from the model; with the engine also from the trace and reports of a native run."""
        try:
            text = self.lowered(level)
            return [Found(seed, level, wrong) for seed, wrong in self.wrong(text, output, with_engine)]
        except (RuntimeError, AssertionError, Trouble) as error:
            return [Found(self.file.programs[0].seed, level, str(error))]
        finally:
            if not self.keeps:
                for path in glob.glob(f"{glob.escape(self.stem)}{level}.*"):
                    shutil.rmtree(path) if os.path.isdir(path) else os.remove(path)

    def wrong(self, text: str, output: str, with_engine: bool) -> Iterator[tuple[int, str]]:
        """What is wrong with the run of a lowered text, with the seed of the program."""
        printed = output_of([self.hippo, "run", text, *self.numbers])
        recorded = output_of([self.hippo, "record", text, *self.numbers])
        with open(f"{text}.trace", "w", encoding="ascii") as file:
            file.write(recorded)
        reports = output_of([self.hippo, "check", text, f"{text}.trace"])
        for program, one, other in zip(self.file.programs, printed.split("\n"), output.split("\n")):
            if one != other:
                yield program.seed, f"prints {one} for {other}"
                break
        found = Judge(self.file, self.addresses, recorded, reports).difference()
        if found:
            yield found
        if with_engine:
            yield from (
                (self.file.programs[0].seed, wrong) for wrong in self.differences_of_engine(text, recorded, reports)
            )

    def differences_of_engine(self, text: str, recorded: str, reports: str) -> Iterator[str]:
        """What differs between the trace and the reports of hippo and those of a native run at hippo's addresses."""
        with open(text, encoding="latin-1") as file:
            program = LoweredProgram(file.read())
        os.makedirs(f"{text}.engine", exist_ok=True)
        engine = Engine(program, f"{text}.engine")
        engine.record(self.file.numbers, f"{text}.native")
        with open(f"{text}.native", encoding="ascii") as file:
            if file.read() != recorded:
                yield "the native run has another trace"
        if engine.check(self.file.numbers) != reports.splitlines():
            yield "the native run has other reports"


def try_bundle(
    seeds: list[int], levels: list[str], folder: str, hippo: str, keeps: bool = False, with_engine: bool = False
) -> list[Found]:
    """What is wrong with the programs of some seeds at some levels. The native build is at a level of its own.

    Where something is wrong, each half of the programs is tried, down to a single one."""
    bundle = Bundle(seeds, folder, hippo, keeps)
    try:
        output = bundle.native_output(LEVELS[seeds[0] // len(seeds) % len(LEVELS)])
        found = [one for level in levels for one in bundle.differences(level, output, with_engine)]
    except RuntimeError as error:
        found = [Found(seeds[0], "native", str(error))]
    LOWERING.forget(f"{bundle.stem}.c")
    if not keeps:
        for end in (".c", ".native"):
            with contextlib.suppress(FileNotFoundError):
                os.remove(bundle.stem + end)
    if found and len(seeds) > 1:
        half = len(seeds) // 2
        return [
            one
            for some in (seeds[:half], seeds[half:])
            for one in try_bundle(some, levels, folder, hippo, keeps, with_engine)
        ] or found
    return found
