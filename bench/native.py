"""`run` and `check` of C programs, compared with native code, which clang builds at -O1, and with valgrind's memcheck of that code."""

from __future__ import annotations

import os
import shutil
import subprocess
from pathlib import Path

from measuring import Command, Hippo, Missed, figures, leave_out, seconds, show, times

TOP = Path(__file__).resolve().parent.parent
TOOLS = ("clang-19", "valgrind")
# A round of a program, and the code that resets it before each round. A program without a round reads a longer input instead.
ROUNDS = {
    "log": "  store i64 0, ptr @events\n  call void @llvm.x86.clwb(ptr @events)\n  call void @llvm.x86.sse.sfence()\n",
    "allocator": "  store i64 0, ptr @list\n  call void @pmem_persist(ptr @list, i64 8)\n",
}
# The short and the long size of each program: rounds, or what the input has.
SIZES = {"log": (20, 10_000), "allocator": (20, 6_000), "undo": (100, 30_000), "store": (200, 100_000)}

# The part of memcheck's multiple of native code that `check` may take.
PARTS_OF_MEMCHECK = {"log": 1.0, "allocator": 1.0, "undo": 0.4, "store": 1.5}


def longer(name: str, text: str) -> str:
    """The lowered text of a program, with a `main` that runs it as many times as the input says."""
    text = text.replace("define i32 @main() {", "define i32 @round() {", 1)
    reader = "" if "@read_i64" in text else "declare i64 @read_i64()\n"
    return f"""{text}{reader}define i32 @main() {{
entry:
  %rounds = call i64 @read_i64()
  br label %head
head:
  %i = phi i64 [ 0, %entry ], [ %next, %head ]
{ROUNDS[name]}  %code = call i32 @round()
  %next = add i64 %i, 1
  %more = icmp ult i64 %next, %rounds
  br i1 %more, label %head, label %over
over:
  ret i32 0
}}
"""


def numbers_of(name: str, size: int) -> list[int]:
    """The input of a program for a size."""
    if name == "undo":
        return [size, *(number for count in range(size) for number in (count % 8, (count + 3) % 8, 1 + count % 5))]
    return [8, size, 37, 0] if name == "store" else [size]


def built(hippo: Hippo, name: str, text: str) -> str:
    """The native program. It flushes with `clflush`, since valgrind does not know `clwb`."""
    path = hippo.file(f"{name}.native.ll", text.replace("@llvm.x86.clwb(", "@llvm.x86.sse2.clflush("))
    program = f"{hippo.folder}/{name}.native"
    words = ["clang-19", "-w", "-O1", "-target", "x86_64-pc-linux-gnu", f"-I{TOP}/tools", "-o", program, path]
    done = subprocess.run([*words, f"{TOP}/tools/external_functions.c"], capture_output=True, text=True, check=False)
    if done.returncode:
        raise Missed(f"clang-19 does not build {name}: {done.stderr.strip()[:200]}")
    return program


def text_of(name: str) -> str:
    """The lowered text of a program whose input says how long it runs."""
    text = (TOP / "examples" / "from_c" / f"{name}.ll").read_text(encoding="ascii")
    return longer(name, text) if name in ROUNDS else text


def beside_native_code(hippo: Hippo, name: str) -> None:
    """How many times native code each tool takes for a program. A time is the difference between a long and a short input, so that
    the start does not count."""
    text = text_of(name)
    path, program = hippo.file(f"{name}.ll", text), built(hippo, name, text)
    commands: list[Command] = []
    for size in SIZES[name]:
        numbers = numbers_of(name, size if size < 1000 else hippo.size(size))
        trace = hippo.recorded(path, *numbers)
        given = hippo.file(f"{name}.{size}.in", " ".join(map(str, numbers)) + "\n")
        commands += [
            Command((program,), input=given),
            Command(("valgrind", "-q", "--tool=memcheck", program), input=given),
        ]
        commands += [hippo.command("run", path, *numbers), hippo.command("check", path, trace)]
    taken = times(hippo.runs, *commands)
    native, memcheck, run, check = (max(long - short, 1e-6) for short, long in zip(taken[:4], taken[4:]))
    basis = seconds(native, memcheck, run, check)
    show(f"memcheck: times native code, {name}.c", memcheck / native, basis=basis)
    show(f"run: times native code, {name}.c", run / native)
    goal = round(PARTS_OF_MEMCHECK[name] * memcheck / native, 2)
    show(f"check: times native code, {name}.c", check / native, most=goal)
    show(f"check: times the time of run, {name}.c", check / run, most=1.8, basis=seconds(check, run))


def measure(hippo: Hippo) -> None:
    """All figures of this part."""
    missing = [tool for tool in TOOLS if shutil.which(tool) is None]
    if os.uname().machine != "x86_64":
        missing.append("an x86-64 processor")
    if missing:
        leave_out("beside native code and valgrind", missing)
        return
    for name in SIZES:
        figures(f"beside native code, {name}.c", beside_native_code, hippo, name)
