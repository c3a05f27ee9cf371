"""Copies of a program that print numbers as they run: which checks, blocks and calls ran, and in which order.

A copy has the program's memory, blocks and depth of calls, so it does what the program does. It does not print the numbers that
the program prints, and it takes more turns."""
import contextlib
import itertools
import os
import subprocess
import tempfile
from collections.abc import Callable, Iterator

from .numbers import MOST_TURNS
from .program import Instruction, Program, Site
from .running import Ended, finish, hippo_program, output_of, start, stop

PRINTS = "print_i64"
# The functions of the runtime that end the run.
EXITS = ("hippo.exit", "hippo._exit", "hippo._Exit", "hippo.quick_exit")
# The operands that are printed before an instruction, and those after it.
Marks = tuple[list[str], list[str]]


def marked_text(program: Program, marks: Callable[[Site, Instruction], Marks]) -> str:
    """The program with the prints that `marks` asks for at each instruction, in place of its own."""
    out = [line for line in program.head if not line.startswith(f"declare void @{PRINTS}(")]
    out.append(f"declare void @{PRINTS}(i64)")
    counter = itertools.count()
    for function in program.functions.values():
        out.append(function.head)
        for block in function.blocks:
            out += [f"{block.label}:", *(f"  {phi}" for phi in block.phis)]
            for index, instruction in enumerate(block.instructions):
                before, after = marks((function.name, block.label, index), instruction)
                out += print_lines(before, counter)
                if instruction.callee != PRINTS:
                    out.append(f"  {instruction.text}")
                out += print_lines(after, counter)
        out.append("}")
    return "\n".join(out) + "\n"


def print_lines(operands: list[str], counter: Iterator[int]) -> Iterator[str]:
    """The prints of operands: numbers, `i64 X`, and `ptr X`, whose address is printed."""
    for operand in operands:
        if operand.startswith("ptr "):
            register = f"%hippo.address.{next(counter)}"
            yield f"  {register} = ptrtoint {operand} to i64"
            operand = register
        yield f'  call void @{PRINTS}(i64 {operand.removeprefix("i64 ")})'


@contextlib.contextmanager
def marked_run(text: str, numbers: list[int]) -> Iterator["MarkedRun"]:
    """A run of a marked text, which is ended and whose file is removed after the block."""
    with tempfile.NamedTemporaryFile("w", suffix=".ll", delete=False) as file:
        file.write(text)
    run = MarkedRun(file.name, numbers)
    try:
        yield run
    finally:
        stop(run.process)
        os.unlink(file.name)


class MarkedRun:
    """A run whose marks are read while it goes on."""

    def __init__(self, path: str, numbers: list[int]) -> None:
        words = ["run", path, "--limit", str(MOST_TURNS), "--", *map(str, numbers)]
        self.process = start([hippo_program(), *words], stdout=subprocess.PIPE)

    def marks(self) -> Iterator[int]:
        """The marks one by one."""
        return map(int, output_of(self.process))

    def chunks(self, seen: Callable[[], bool] = lambda: True) -> Iterator[list[bytes]]:
        """The marks in large pieces, for work in bulk, while `seen` holds."""
        rest = b""
        while seen() and (piece := output_of(self.process).read(1 << 20)):
            *whole, rest = (rest + piece).split(b"\n")
            yield whole

    def ended(self) -> Ended:
        """How the run ended, after its last mark."""
        return finish(self.process)


def checks_of(program: Program) -> list[Site]:
    """The sites at which a range is asserted, or main returns."""
    return [
        site
        for site, instruction in program.sites()
        if instruction.callee == "pm_assert" or site[0] == "main" and instruction.text.startswith("ret ")
    ]


def only_sites(program: Program, asserts: int) -> list[Site] | None:
    """The sites of all checks of a run, if the program has at most one assert and one return of main; otherwise nothing."""
    sites = checks_of(program)
    of_asserts = [site for site in sites if program.at(site).callee == "pm_assert"]
    returns = [site for site in sites if site not in of_asserts]
    if len(of_asserts) > 1 or len(returns) != 1:
        return None
    return of_asserts * asserts + returns


def exits_of(program: Program) -> list[Site]:
    """The calls of `exit` and similar functions, outside the runtime."""
    return [site for site, instruction in program.sites() if instruction.callee in EXITS and site[0] not in EXITS]


def sites_of_checks(program: Program, numbers: list[int], asserts: int, ends: bool) -> list[Site]:
    """The site of each assert that ran, in order, and then that of the last return of main if the run ends, or of the call of `exit`
    from which it came."""
    sites = checks_of(program) + exits_of(program)
    by_site = {site: [str(number)] for number, site in enumerate(sites)}
    text = marked_text(program, lambda site, _: (by_site.get(site, []), []))
    found: list[Site] = []
    returned: list[Site] = []
    with marked_run(text, numbers) as run:
        for mark in run.marks():
            instruction = program.at(sites[mark])
            if instruction.added and returned:
                continue  # the return that tools/lower added for `exit`
            (found if instruction.callee == "pm_assert" else returned).append(sites[mark])
            if len(found) == asserts and not ends:
                break
    return found[:asserts] + returned[-1:]


def blocks_that_ran(program: Program, numbers: list[int], most: int) -> tuple[set[tuple[str, str]], bool]:
    """The blocks that a run enters, and whether its end was seen within about `most` marks."""
    blocks = list(program.blocks)
    by_block = {block: [str(number)] for number, block in enumerate(blocks)}
    text = marked_text(program, lambda site, _: (by_block[site[:2]] if site[2] == 0 else [], []))
    seen: set[bytes] = set()
    count = 0
    with marked_run(text, numbers) as run:
        for chunk in run.chunks(lambda: count < most):
            seen.update(chunk)
            count += len(chunk)
    return {blocks[int(mark)] for mark in seen if mark}, count < most
