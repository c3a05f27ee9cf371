"""What a user of `hippo-c` waits for: a second check, one crash image again, suggestions, and a project of twenty files beside its own make."""

from __future__ import annotations

import os
import shutil
import subprocess
import sys
from pathlib import Path

from measuring import Hippo, Missed, figures, leave_out, seconds, show

TOP = Path(__file__).resolve().parent.parent
TOOLS = ("clang-19", "llvm-link-19", "opt-19", "llvm-as-19")
RING = str(TOP / "examples" / "ring_buffer" / "ring.c")
NUMBERS = str(TOP / "examples" / "ring_buffer" / "ring.in")
FILES, FUNCTIONS = 20, 30
FUNCTION = """long work_{file}_{number}(long *at, long count) {{
  long sum = {number};
  for (long i = 0; i < count; i++) {{
    sum = sum * 31 + at[i % 8];
    if (sum % 7 == {file}) at[i % 8] = sum;
    switch (sum % 5) {{
    case 0: sum += work_{file}_{other}(at, i / 2); break;
    case 1: sum ^= i; break;
    case 2: at[0] = i; break;
    default: sum -= {file};
    }}
  }}
  return sum;
}}
"""


class User:
    """A folder with a cache of its own, and the processor time of commands there."""

    def __init__(self, hippo: Hippo) -> None:
        self.folder = f"{hippo.folder}/user"
        os.makedirs(self.folder, exist_ok=True)
        self.environment = {**os.environ, "XDG_CACHE_HOME": f"{self.folder}/cache", "HIPPO_PROGRAM": hippo.program}
        self.runs = hippo.runs

    def once(self, *words: str) -> float:
        """The processor time of a command with all that it starts."""
        before = os.times()
        ran = subprocess.run(words, cwd=self.folder, env=self.environment, capture_output=True, text=True, check=False)
        after = os.times()
        if ran.returncode not in (0, 1):
            raise Missed(f'{" ".join(words)[:90]}: exit {ran.returncode}: {ran.stderr[-300:]}')
        return after.children_user + after.children_system - before.children_user - before.children_system

    def hippo_c(self, *words: str) -> float:
        """The processor time of hippo-c."""
        return self.once(sys.executable, "-B", str(TOP / "tools" / "hippo-c"), *words)

    def again(self, *words: str) -> float:
        """The least processor time of the same call of hippo-c again and again, after a first one."""
        self.hippo_c(*words)
        return min(self.hippo_c(*words) for _ in range(self.runs))

    def forget(self) -> None:
        """Removes all that is kept."""
        shutil.rmtree(f"{self.folder}/cache", ignore_errors=True)


def one_file(user: User) -> None:
    """The calls for one small program."""
    words = (RING, "--input-file", NUMBERS)
    second = user.again("check", *words)
    show("hippo-c: seconds of a second check, ring.c", second, most=0.5)
    image = user.again("crash", *words, "--entries", "40", "--pick")
    show("hippo-c: seconds of one crash image again, ring.c", image, most=0.5)
    fixed = user.again("check", *words, "--fix")
    show("hippo-c: check --fix to check, ring.c", fixed / second, most=3, basis=seconds(fixed) + ", " + seconds(second))


def write_project(user: User) -> list[str]:
    """The files of a project."""
    names = []
    for file in range(FILES):
        parts = [f"long work_{file}_{number}(long *, long);\n" for number in range(FUNCTIONS)]
        parts += [
            FUNCTION.format(file=file, number=number, other=(number + 1) % FUNCTIONS) for number in range(FUNCTIONS)
        ]
        names.append(f"work{file}.c")
        Path(user.folder, names[-1]).write_text("".join(parts), encoding="ascii")
    calls = "".join(f"  sum += work_{file}_0(at, 3);\n" for file in range(FILES))
    heads = "".join(f"long work_{file}_0(long *, long);\n" for file in range(FILES))
    main = f"#include <hippo.h>\nPERSISTENT long at[8];\n{heads}int main(void) {{\n  long sum = 0;\n{calls}  return sum & 1;\n}}\n"
    Path(user.folder, "main.c").write_text(main, encoding="ascii")
    return ["main.c", *names]


def project(user: User) -> None:
    """A project of twenty files and a driver: the first call, and one after an edit of one file, beside its own make."""
    names = write_project(user)
    make = sum(
        user.once("clang-19", "-O1", "-w", "-mclwb", f"-I{TOP}/tools", "-c", "-o", f"{name}.o", name) for name in names
    )
    user.hippo_c("check", RING, "--input", "0")  # the runtime's modules belong to no project
    first = user.hippo_c("check", *names)
    show(
        "hippo-c: first check to make at -O1, 20 files",
        first / make,
        most=2,
        basis=seconds(first) + ", " + seconds(make),
    )
    with Path(user.folder, names[-1]).open("a", encoding="ascii") as file:
        file.write("// edited\n")
    edited = user.hippo_c("check", *names)
    show("hippo-c: check after an edit to the first, 20 files", edited / first, most=1, basis=seconds(edited))
    show("hippo-c: seconds of a second check, 20 files", user.again("check", *names), most=0.5)


def measure(hippo: Hippo) -> None:
    """All figures of this part."""
    missing = [tool for tool in TOOLS if shutil.which(tool) is None]
    if missing:
        leave_out("what a user of hippo-c waits for", missing)
        return
    user = User(hippo)
    user.forget()
    figures("hippo-c: one file", one_file, user)
    figures("hippo-c: a project", project, user)
