"""Speed compared with LLVM 19's interpreter, one command or loop compared with another, and the time that the launcher adds."""

from __future__ import annotations

import re
import shutil
from pathlib import Path

from measuring import Command, Hippo, figures, leave_out, seconds, show, times

BENCH = Path(__file__).resolve().parent
INTERPRETER = ("lli-19", "--force-interpreter")
# Each loop with the number of its turns (None if it takes no input), and the goals of `run` and of `check`: times as fast as the interpreter.
LOOPS = {
    "loop": (None, 25, 15),
    "turns": (3_000_000, 25, 20),
    "calls": (1_000_000, 25, 12),
    "deep": (60, 25, None),
    "store": (1_000_000, 15, 6),
    "flush": (333_333, 30, 7),
}


def for_interpreter(text: str, number: int | None) -> str:
    """The text with its number written in, and with empty functions for flush and fence, which the interpreter does not have."""
    text = text.replace("declare i64 @read_i64()\n", f"define i64 @read_i64() {{\n  ret i64 {number}\n}}\n")
    text = re.sub(r"declare void (@llvm\S+)\((\w*)\)", r"define void \1(\2) {\n  ret void\n}", text)
    return text.replace("@llvm.x86.", "@x86.")


def beside_the_interpreter(hippo: Hippo, name: str) -> None:
    """`run` and `check` of a loop, compared with the interpreter."""
    turns, run_goal, check_goal = LOOPS[name]
    path = BENCH / f"{name}.ll"
    numbers = [] if turns is None else [hippo.size(turns)]
    text = hippo.file(
        f"{name}.lli.ll", for_interpreter(path.read_text(encoding="ascii"), numbers[0] if numbers else None)
    )
    stop = 112 if name == "loop" else 0
    llvm = Command((*INTERPRETER, text), code=stop)
    trace = hippo.recorded(str(path), *numbers)
    ours = [
        hippo.command("run", path, *numbers),
        hippo.command("check", path, trace),
        hippo.command("record", path, *numbers),
    ]
    lli, run, check, record = times(hippo.runs, llvm, *ours)
    show(f"run: times as fast as LLVM's interpreter, {name}.ll", lli / run, least=run_goal, basis=seconds(run, lli))
    show(
        f"check: times as fast as LLVM's interpreter, {name}.ll",
        lli / check,
        least=check_goal,
        basis=seconds(check, lli),
    )
    if name == "loop":
        show("record: times the time of run, loop.ll", record / run, most=1.2, basis=seconds(record, run))
        show("check: times the time of run, loop.ll", check / run, most=2, basis=seconds(check, run))
    if name == "flush":
        entries = 3 * numbers[0] + 4
        written = (record - run) / entries * 1e9
        show(
            "record: nanoseconds for an entry written, flush.ll",
            written,
            most=40,
            basis=seconds(record, run),
            form=".0f",
        )


def beside_one_another(hippo: Hippo) -> None:
    """Ratios of one command or loop to another."""
    count = hippo.size(1_000_000)
    descents = hippo.size(50)
    mixed = BENCH / "mixed.ll"
    trace = hippo.recorded(str(mixed), count // 5)
    run, check = times(hippo.runs, hippo.command("run", mixed, count // 5), hippo.command("check", mixed, trace))
    show("check: times the time of run, mixed.ll", check / run, most=2, basis=seconds(check, run))
    rows = [("turns", count), ("calls", count), ("deep", descents), ("store", count), ("flush", count)]
    plain, calls, deep, store, flush = times(
        hippo.runs, *(hippo.command("run", BENCH / f"{name}.ll", number) for name, number in rows)
    )
    rate, of_calls, of_depth = 4 * count / plain, 5 * count / calls, 6 * 16_000 * descents / deep
    show("run: a loop's million steps a second, turns.ll", rate / 1e6, basis=seconds(plain))
    show("run: a loop of calls, part of that rate, calls.ll", of_calls / rate, least=0.5, basis=seconds(calls))
    show("run: calls 16,000 deep, part of that rate, deep.ll", of_depth / rate, least=0.5, basis=seconds(deep))
    show("run: a loop with flush and fence to it without", flush / store, most=4, basis=seconds(flush, store))


def of_the_launcher(hippo: Hippo) -> None:
    """The time that `./hippo` adds to a call of the proved program."""
    launcher = BENCH.parent / "hippo"
    if Path(hippo.program) != (BENCH.parent / "out" / "hippo").resolve():
        return
    text = hippo.file("nothing.ll", "define i32 @main() {\nentry:\n  ret i32 0\n}\n")
    through = Command((str(launcher), "run", text))
    times(1, through)
    by_launcher, alone = times(4 * hippo.runs, through, hippo.command("run", text))
    added = (by_launcher - alone) * 1e3
    show("launcher: milliseconds that it adds to a call", added, most=20, basis=seconds(by_launcher, alone), form=".1f")


def measure(hippo: Hippo) -> None:
    """All figures of this part."""
    if shutil.which(INTERPRETER[0]) is None:
        leave_out("beside LLVM's interpreter", [INTERPRETER[0]])
    else:
        for name in LOOPS if hippo.scale == 1 else [name for name in LOOPS if name != "loop"]:
            figures(f"beside LLVM's interpreter, {name}.ll", beside_the_interpreter, hippo, name)
    figures("one loop beside another", beside_one_another, hippo)
    figures("the launcher", of_the_launcher, hippo)
