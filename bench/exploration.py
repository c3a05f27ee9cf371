"""The engine of `hippo-c explore` compared with the program: runs of an input, and runs from crash images."""

from __future__ import annotations

import os
import re
import shutil
import sys
from pathlib import Path

from measuring import Command, Hippo, Missed, figures, leave_out, seconds, show, times

TOP = Path(__file__).resolve().parent.parent
sys.path.insert(0, str(TOP / "tools"))
from hippo_c.native import Engine  # noqa: E402
from hippo_c.program import Program  # noqa: E402

TOOLS = ("clang-19", "llvm-link-19", "opt-19", "llc-19")
# How often the engine runs the input of each program.
RUNS = {"undo": 100_000, "allocator": 20_000, "store": 400}
MOST_IMAGE_RUNS = 20_000
# The most microseconds that a run may take, and a run from an image.
MOST_OF_A_RUN = {"undo": 5, "store": 2000}
MOST_OF_AN_IMAGE = {"undo": 10}


def numbers_of(name: str) -> list[int]:
    """The input of a program."""
    path = TOP / "examples" / "from_c" / f"{name}.in"
    return list(map(int, path.read_text(encoding="ascii").split())) if path.exists() else []


def engine_of(hippo: Hippo, name: str) -> tuple[Engine, float]:
    """The engine of a program, built anew, and the processor time that building takes once the engine's own sources are compiled."""
    program = Program((TOP / "examples" / "from_c" / f"{name}.ll").read_text(encoding="ascii"))
    os.environ["XDG_CACHE_HOME"] = f"{hippo.folder}/cache"
    Engine(Program("define i32 @main() {\nentry:\n  ret i32 0\n}\n"), hippo.folder)
    before = sum(os.times()[:4])
    engine = Engine(program, hippo.folder)
    return engine, sum(os.times()[:4]) - before


def replay(engine: Engine, hippo: Hippo, name: str, lines: int, levels: int, runs: int = 1_000_000_000) -> Command:
    """The command that runs an input some times, with power cuts at some levels, up to a number of runs."""
    text = " ".join(map(str, numbers_of(name))) + "\n"
    path = hippo.file(f"{name}.{lines}.inputs", text * lines)
    return Command(
        (engine.path, "replay", "--input", path, "--runs", str(runs), "--crashes", str(levels)),
        f"{hippo.folder}/{name}.said",
    )


def beside_the_program(hippo: Hippo, name: str) -> None:
    """How many times a run in the engine `hippo run` takes, and how many times a run from an image `hippo crash` takes."""
    engine, building = engine_of(hippo, name)
    show(f"explore: seconds of building the engine, {name}.c", building, most=2)
    count = hippo.size(RUNS[name])
    few, many = times(hippo.runs, replay(engine, hippo, name, 1, 0), replay(engine, hippo, name, count + 1, 0))
    native = max(many - few, 1e-6) / count
    show(f"explore: microseconds of a run, {name}.c", native * 1e6, most=MOST_OF_A_RUN.get(name))
    text = str(TOP / "examples" / "from_c" / f"{name}.ll")
    run = times(hippo.runs, hippo.command("run", text, *numbers_of(name)))[0]
    show(f"run: times a run in the engine, {name}.c", run / native, basis=seconds(run) + f", {native * 1e6:.2f} us")
    if name == "store":
        return
    images = replay(engine, hippo, name, 1, 2, hippo.size(MOST_IMAGE_RUNS))
    taken = max(times(hippo.runs, images)[0] - few, 1e-6)
    summary = re.search(r"runs=(\d+)", Path(images.out).read_text(encoding="ascii"))
    if summary is None:
        raise Missed(f"{images.out} has no summary")
    runs = int(summary[1])
    trace = hippo.recorded(text, *numbers_of(name))
    entries = len(Path(trace).read_text(encoding="ascii").split("\n")) - 1
    show(f"explore: microseconds of a run from an image, {name}.c", taken / runs * 1e6, most=MOST_OF_AN_IMAGE.get(name))
    crash = times(hippo.runs, hippo.command("crash", text, trace, entries // 2))[0]
    show(
        f"crash: times a run from an image in the engine, {name}.c",
        crash * runs / taken,
        basis=seconds(crash) + f", {taken / runs * 1e6:.2f} us",
    )


def measure(hippo: Hippo) -> None:
    """All figures of this part."""
    missing = [tool for tool in TOOLS if shutil.which(tool) is None]
    if os.uname().machine != "x86_64":
        missing.append("an x86-64 processor")
    if missing:
        leave_out("beside the engine of explore", missing)
        return
    for name in RUNS:
        figures(f"beside the engine of explore, {name}.c", beside_the_program, hippo, name)
