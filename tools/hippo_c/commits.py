"""Commit points: places where all that was stored so far must be durable before the program goes on.

A place is a line of C, whose first stores (or, without any, its calls) are meant, a function, whose start is meant, or a persistent global,
whose stores are meant. Stores to the stack and to volatile globals do not count. Before each stands a check of all persistent memory."""
from __future__ import annotations

import re
from collections.abc import Iterator

from lowering.lines import Frame

from .program import CALLED, Function, Instruction, Program, Site

OPTION = "--commit"
LINE = re.compile(r"(?P<file>[^:=]+):(?P<line>[0-9]+)")
# The last pointer of a store or of a getelementptr, or what a constant getelementptr in its place begins with.
POINTER = re.compile(r".*\bptr (?:getelementptr \([^@]*)?(?P<at>[%@][-\w$.]+)", re.ASCII)
DERIVED = re.compile(r"(?P<name>%[-\w$.]+) = (?P<word>getelementptr|alloca) ", re.ASCII)
STACK = "stack"


def sites_of(program: Program, word: str) -> list[Site]:
    """The instructions before which a commit point has its check."""
    if found := LINE.fullmatch(word):
        return list(of_line(program, found["file"], int(found["line"])))
    if any(word in (item.name, re.sub(r"\.\d+$", "", item.name)) for item in program.persistent):
        return list(of_global(program, word))
    return [
        (function.name, function.blocks[0].label, 0)
        for function in program.functions.values()
        if not function.added and function.name_in_c == word
    ]


def of_line(program: Program, file: str, line: int) -> Iterator[Site]:
    """The first store at a line in each block; if no block has one, the first call."""
    calls: list[Site] = []
    stores: list[Site] = []
    volatile = {f"@{item.name}" for item in program.globals if not item.persistent}
    for function in program.functions.values():
        roots = roots_of(function)
        not_persistent = {"", STACK, *volatile}
        for block in function.blocks:
            stored = [root_of(instruction, roots) not in not_persistent for instruction in block.instructions]
            called = [bool(CALLED.match(instruction.text)) for instruction in block.instructions]
            at = [place_at(instruction, file, line) for instruction in block.instructions]
            here = [(function.name, block.label, index) for index in firsts(at, stored, called)]
            stores += here
            calls += [(function.name, block.label, index) for index in firsts(at, called, stored) if not here]
    yield from stores or calls


def firsts(at: list[Frame | None], meant: list[bool], others: list[bool]) -> Iterator[int]:
    """The first instruction that is meant of each time that a block goes through a line, by the places of its instructions there.

    It goes through the line again, as it does in a loop that clang unrolled or in a function that it inlined twice, where a place
    comes again after stores or calls of other lines."""
    seen: set[Frame] = set()
    is_elsewhere = True
    for index, frame in enumerate(at):
        if frame is None:
            is_elsewhere |= meant[index] or others[index]
        elif meant[index]:
            if not seen or is_elsewhere and frame in seen:
                seen = set()
                yield index
            seen.add(frame)
            is_elsewhere = False


def place_at(instruction: Instruction, file: str, line: int) -> Frame | None:
    """The place of an instruction at a line of C, if it has one there; that of an inlined function is the same at each of its calls."""
    return next(
        (frame for frame in instruction.frames if frame.line == line and f"/{frame.file}".endswith(f"/{file}")), None
    )


def of_global(program: Program, name: str) -> Iterator[Site]:
    """The stores whose address is taken from a global in the function that stores."""
    for function in program.functions.values():
        roots = roots_of(function)
        for block in function.blocks:
            for index, instruction in enumerate(block.instructions):
                root = root_of(instruction, roots)
                if root.startswith("@") and name in (root[1:], re.sub(r"\.\d+$", "", root[1:])):
                    yield function.name, block.label, index


def root_of(instruction: Instruction, roots: dict[str, str]) -> str:
    """From what the address of a store is made: a global, the stack, or another register; nothing if it is no store."""
    found = POINTER.match(instruction.text) if instruction.text.startswith("store ") else None
    root, passed = found["at"] if found else "", set()
    while root in roots and root not in passed:
        passed.add(root)
        root = roots[root]
    return root


def roots_of(function: Function) -> dict[str, str]:
    """From what each register is made that getelementptr makes of another one. Blocks stand in any order."""
    roots: dict[str, str] = {}
    for block in function.blocks:
        for instruction in block.instructions:
            if found := DERIVED.match(instruction.text):
                base = POINTER.match(instruction.text)
                roots[found["name"]] = STACK if found["word"] == "alloca" else base["at"] if base else ""
    return roots
