"""Blocks on the stack, at the alignments that clang states.

hippo aligns a block by its type alone, to 8 at most, and clang's code uses what clang states: it writes `p | 8` for `p + 8`. In a program
that has a block of alignment 16, padding keeps the end of the stack at a multiple of 16 wherever a run of allocations begins and
where it ends, so each call and each such block begins at one, too. A greater alignment is found in a larger block."""
from __future__ import annotations

import re
from typing import TYPE_CHECKING, Callable

from .layout import room, words
from .refusals import Refused
from .tokens import Tokens
from .types import Type, alignment, read_type, round_up, show_type, size

if TYPE_CHECKING:
    from .function import Function

LARGEST_ALIGNMENT = 4096
# Up to this alignment padding is enough.
PADDED = 16
# The greatest alignment of a type of the subset.
OF_TYPES = 8
ALLOCA = re.compile(r"  (?P<name>%\S+) = alloca (?P<rest>.*)")


def block(function: Function, name: str, type_: Type, least: int) -> list[str]:
    """The instructions that allocate a block of a type's size at an alignment."""
    if least > LARGEST_ALIGNMENT:
        raise Refused(f"align {least}: at most {LARGEST_ALIGNMENT}", "limit")
    if OF_TYPES < least <= PADDED:
        function.module.has_padded_blocks = True
    if least <= PADDED:
        return [f"{name} = alloca {show_type(room(type_, least))}{shown(least)}"]
    larger, number, above, aligned = (
        function.fresh(f"{name[1:]}.{part}") for part in ("room", "number", "above", "aligned")
    )
    return [
        f"{larger} = alloca {show_type(words(size(type_) + least - OF_TYPES, OF_TYPES))}{shown(least)}",
        f"{number} = ptrtoint ptr {larger} to i64",
        f"{above} = add i64 {number}, {least - 1}",
        f"{aligned} = and i64 {above}, -{least}",
        f"{name} = inttoptr i64 {aligned} to ptr",
    ]


def shown(least: int) -> str:
    """`, align N`, or nothing for 0."""
    return f", align {least}" if least else ""


def padded(lines: list[str], fresh: Callable[[str], str], comment: str) -> list[str]:
    """The lines of a function with padding: each run of allocations begins and ends at a multiple of 16."""
    found: list[str] = []
    end = 0

    def pad() -> None:
        nonlocal end
        if end % PADDED:
            found.append(f'  {fresh("padding")} = alloca [{-end % PADDED} x i8]{comment}')
            end = 0

    for line in lines:
        allocated = ALLOCA.match(line)
        if allocated is None:
            pad()
        else:
            type_, least = allocated_type(allocated["rest"])
            if least >= PADDED:
                pad()
            end = round_up(end, alignment(type_)) + size(type_)
        found.append(line)
    return found


def allocated_type(text: str) -> tuple[Type, int]:
    """The type of an `alloca` of the subset, from the text after that word, and the alignment that it states."""
    tokens = Tokens(text)
    type_ = read_type(tokens, {})
    if not tokens.take_if(","):
        return type_, 0
    tokens.take("align")
    return type_, int(tokens.take())
