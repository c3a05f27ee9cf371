"""The instrumented text of a program: it runs natively at hippo's own addresses, and calls a hook of tools/explore at each step that
hippo sees.

A site has the number of its instruction in the text."""
from __future__ import annotations

import zlib
from collections.abc import Iterator

from lowering.externs import EXTERNS

from .hooked import HOOK, Hooked, last_name
from .program import Block, Function, Program, Site
from .program_tables import RECOVERED, Tables
from .trouble import Trouble

# What the functions of hippo.h tell the engine at their entries.
MARKS = {"hippo_op": "operation", RECOVERED: "recovered"}
HOOKS = (
    "block(i32, i32, i32)",
    "call(i32)",
    "after_call(i32)",
    "load(ptr, i32, i32, i32)",
    "store(ptr, i64, i32, i32, i32)",
    "divide(i64, i32)",
    "divide_signed(i64, i64, i64, i32)",
    "shift(i64, i64, i32)",
    "flush(ptr, i64, i32)",
    "persist(ptr, i64, i32)",
    "fence(i32)",
    "assert(ptr, i64, i32)",
    "print(i64, i32)",
    "unreachable(i32)",
    "assumed(i32)",
    "operation()",
    "recovered()",
)


class Instrumented:
    """The instrumented text of a program.

    `recovers` names the functions whose return ends the recovery."""

    def __init__(self, program: Program, recovers: tuple[str, ...] = ()) -> None:
        self.program, self.recovers = program, recovers
        self.hooked = Hooked(program)
        self.sites: list[Site] = [site for site, _ in program.sites()]
        self.turns: list[int] = []
        self.edges = 1024
        while self.edges < 8 * len(program.blocks) and self.edges < 65536:
            self.edges *= 2
        self.numbers = {key: number for number, key in enumerate(program.blocks)}
        blocks = [line for function in program.functions.values() for line in self.function(function)]
        tables = Tables(program, self.hooked, self.turns, self.edges, self.sizes, bool(recovers))
        self.text = "\n".join([*self.head(), *blocks, *tables.lines()]) + "\n"

    @property
    def sizes(self) -> tuple[int, int]:
        """The sizes of the volatile globals and of the region in bytes."""
        end = max((item.address + item.size for item in self.program.globals if not item.persistent), default=65536)
        return end - 65536, self.program.region_size()

    def head(self) -> Iterator[str]:
        """The declarations of the hooks."""
        yield 'target triple = "x86_64-pc-linux-gnu"'
        yield from (f"declare void @{HOOK}{hook}" for hook in HOOKS)
        yield f"declare ptr @{HOOK}alloca(i64, i64, i32)"
        yield f"declare i64 @{HOOK}read(i32)"

    def function(self, function: Function) -> Iterator[str]:
        """The lines of a function."""
        self.hooked.inside = function.name
        head = self.hooked.renamed(function.head)
        yield head.replace("define", "define internal", 1) if function.name != "main" else head.replace(
            "@p.main(", "@hippo_program_main("
        )
        for index, block in enumerate(function.blocks):
            yield f"{block.label}:"
            yield from (f"  {self.hooked.renamed(phi)}" for phi in block.phis)
            yield from self.block(function, block, index == 0)
        yield "}"

    def block(self, function: Function, block: Block, is_first: bool) -> Iterator[str]:
        """The lines of a block after its phis."""
        segments = self.segments(block)
        mark = zlib.crc32(f"{function.name} {block.label}".encode("latin-1")) & 0xFFFF
        yield f"  call void @{HOOK}block(i32 {self.numbers[(function.name, block.label)]}, i32 {mark}, i32 {next(segments)})"
        if is_first and last_name(function.name) in MARKS:
            yield f"  call void @{HOOK}{MARKS[last_name(function.name)]}()"
        for instruction in block.instructions:
            if instruction.text.startswith("ret ") and function.name in self.recovers and not instruction.added:
                yield f"  call void @{HOOK}recovered()"
            place = instruction.frames[:1] or self.hooked.number
            yield from (f"  {line}" for line in self.hooked.lines(instruction.text, place))
            if instruction.callee in self.program.functions:
                yield f"  call void @{HOOK}after_call(i32 {next(segments)})"

    def segments(self, block: Block) -> Iterator[int]:
        """The turns of each segment of a block, which ends with a call of a defined function or with the block; notes the turns before
        each instruction in its segment."""
        found, count = [], 0
        for instruction in block.instructions:
            self.turns.append(count)
            effect = EXTERNS[instruction.callee].effect if instruction.callee in EXTERNS else ""
            count += not effect
            if instruction.callee in self.program.functions:
                found.append(count)
                count = 0
        return iter([*found, count])


def check_names(program: Program) -> None:
    """Refuses a program whose names could meet those of the engine."""
    for name in program.functions:
        if name.startswith(HOOK):
            raise Trouble(f"the function {name}: explore needs names that begin with {HOOK} for itself")
