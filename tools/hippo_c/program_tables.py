"""The tables of an instrumented program that tools/explore/engine.h declares."""
from __future__ import annotations

import re
from collections.abc import Iterator
from dataclasses import dataclass

from lowering.tokens import Tokens
from lowering.types import alignment, read_type, size

from . import words
from .entries import operands
from .hooked import FLAG, HOOK, Hooked, last_name
from .program import GLOBAL, Program, type_text

MOST_CONSTANTS = 512
TEXT = re.compile(r" = constant \[\d+ x i8\] \[(.*), i8 0\]")
BYTE = re.compile(r"i8 (-?\d+)")
RECOVERED = "hippo_recovered"
PRINTS_BEFORE = "hippo_prints_before"


@dataclass
class Tables:
    """The tables: `turns` has for each site the turns before it in its segment, `edges` is the number of counters of edges; `is_marked`: a
    function whose return ends the recovery is named."""

    program: Program
    hooked: Hooked
    turns: list[int]
    edges: int
    sizes: tuple[int, int]
    is_marked: bool

    def lines(self) -> Iterator[str]:
        """The definitions of all tables."""
        initials: list[str] = []
        for line in self.program.head:
            found = GLOBAL.match(line)
            if found and (value := self.initial(line, found.end())):
                name = f"@hippo_initial.{len(initials)}"
                yield f"{name} = internal constant {value[0]}, align {value[1]}"
                address = self.hooked.addresses[found[1]]
                initials.append(f"{{ i64, ptr, i64 }} {{ i64 {address}, ptr {name}, i64 {value[2]} }}")
        yield f'@hippo_program_initial = constant [{len(initials)} x {{ i64, ptr, i64 }}] [{", ".join(initials)}]'
        constants = self.constants()
        class_of = self.hooked.class_of
        yield table("turns", "i32", self.turns)
        yield table("classes", "i32", [class_of.get(site, 0) for site in range(len(self.turns))])
        yield table("constants", "i64", constants)
        yield f"@{HOOK}ran = global [{len(self.program.blocks)} x i8] zeroinitializer"
        values = self.values(len(initials), len(constants))
        yield from (f"@hippo_program_{name} = constant i64 {number}" for name, number in values.items())

    def values(self, initials: int, constants: int) -> dict[str, int]:
        """The single numbers."""
        addresses, (volatile, region) = self.hooked.addresses, self.sizes
        ends = self.is_marked or any(last_name(name) == RECOVERED for name in self.program.functions)
        return {
            "initials": initials,
            "region": region,
            "volatile": volatile,
            "blocks": len(self.program.blocks),
            "edges": self.edges,
            "sites": len(self.turns),
            "constant_count": constants,
            "prints_address": next((at for name, at in addresses.items() if last_name(name) == PRINTS_BEFORE), 0),
            "marks_recovery": int(ends),
        }

    def constants(self) -> list[int]:
        """The numbers that the program compares with, the small ones first, and what it may compare words of the command line with."""
        found = sorted(self.hooked.constants, key=lambda number: (abs(number), number))[:MOST_CONSTANTS]
        return found + (self.words() if words.reads_words(self.program) else [])

    def words(self) -> list[int]:
        """The short texts of the program, and small numbers, as words of the command line."""
        found = dict.fromkeys(map(str, range(10)))
        for line in self.program.head:
            if (
                (text := TEXT.search(line))
                and (word := bytes(int(byte) & 255 for byte in BYTE.findall(text[1]))).isascii()
                and len(word) < 8
            ):
                found[word.decode()] = None
        return [number for word in found if word for number in words.encoded([word])[:-1]][:MOST_CONSTANTS]

    def initial(self, line: str, start: int) -> tuple[str, int, int] | None:
        """The type and value of a global, its alignment and its size; nothing if all bytes are zeros."""
        type_ = type_text(line, start)
        value = operands(line[start + len(type_) :])[0]
        if value == "zeroinitializer":
            return None
        read = read_type(Tokens(type_), {})
        return f'{type_.strip()} {FLAG.sub("", self.hooked.renamed(value))}', alignment(read), size(read)


def table(name: str, type_: str, numbers: list[int]) -> str:
    """The definition of a table of numbers."""
    return f'@hippo_program_{name} = constant [{len(numbers)} x {type_}] [{", ".join(f"{type_} {number}" for number in numbers)}]'
