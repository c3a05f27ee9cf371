"""Which instruction made each entry of a trace: a marked copy of the program prints a number at each instruction that makes entries."""
import re
from collections.abc import Iterator
from typing import NamedTuple

from lowering.externs import FENCES, LINE_FLUSHES

from .marking import marked_run, marked_text
from .places import Places
from .program import REGION_BASE, Instruction, Program, Site
from .traces import pieces

RANGE_FLUSHES = ("pmem_flush", "pmem_persist")
HEADER_AND_END = ("START", "REGISTER", "INPUT", "IMAGE", "STOP", "TRAP", "CUT")


def operands(text: str) -> list[str]:
    """The operands of an instruction or of a call, cut at the commas that are in no brackets."""
    found = re.search(r"call \S+ @[-\w$.]+\((.*)\)$", text, re.ASCII)
    text, depth, start, parts = found[1] if found else text, 0, 0, []
    for place, letter in enumerate(text):
        depth += (letter in "([{") - (letter in ")]}")
        if letter == "," and depth == 0:
            parts.append(text[start:place].strip())
            start = place + 1
    return parts + [text[start:].strip()]


def printed(instruction: Instruction) -> list[str]:
    """The address and the size that an instruction stores to or flushes, as far as it has them; they decide whether it makes an entry."""
    if instruction.text.startswith("store "):
        return [operands(instruction.text)[1]]
    callee = instruction.callee
    if callee in LINE_FLUSHES:
        return [operands(instruction.text)[0]]
    if callee in RANGE_FLUSHES:
        return operands(instruction.text)[:2]
    return []


def makes_entry(instruction: Instruction, values: list[int], size: int) -> bool:
    """Whether an instruction with these operands makes an entry, where the region has this size."""
    if not values or instruction.callee in FENCES:
        return True
    in_region = REGION_BASE <= values[0] < REGION_BASE + size
    return in_region and (len(values) < 2 or values[1] != 0)


class Made(NamedTuple):
    """What made an entry: the sites from the instruction outwards, and the address and the size that it was given."""

    sites: tuple[Site, ...]
    values: tuple[int, ...]


def paths_of_entries(
    places: Places, numbers: list[int], path: str, helpers: frozenset[str] = frozenset()
) -> dict[int, tuple[Site, ...]]:
    """The site of each entry after the header, up to the first that does not fit the marked copy.

    After a site in a function that is not the user's, or in a helper, come the sites of the calls that ran it, from the user's code on.
    """
    return {number: made.sites for number, made in entries_made(places, numbers, path, helpers)}


def entries_made(places: Places, numbers: list[int], path: str, helpers: frozenset[str]) -> Iterator[tuple[int, Made]]:
    """What made each entry, in the order of the trace."""
    program = places.program
    made = [
        (site, instruction)
        for site, instruction in program.sites()
        if printed(instruction)
        or instruction.callee in (*FENCES, "pm_assert")
        or is_way_out(places, site, instruction, helpers)
    ]
    marks: dict[Site, tuple[list[str], list[str]]] = {}
    for number, (site, instruction) in enumerate(made):
        after = [str(-1 - number)] if is_way_out(places, site, instruction, helpers) else []
        marks[site] = ([str(number), *printed(instruction)], after)
    text = marked_text(program, lambda site, _: marks.get(site, ([], [])))
    with marked_run(text, numbers) as run:
        ran = sites_in_order(made, run.marks(), program)
        for number, entry in enumerate(pieces(path), 1):
            if entry.startswith(HEADER_AND_END):
                continue
            found = next(ran, None)
            if found is None or entry.startswith("STORE") and int(entry.split(";")[1], 16) != found.values[0]:
                break
            yield number, found


def is_way_out(places: Places, site: Site, instruction: Instruction, helpers: frozenset[str]) -> bool:
    """Whether an instruction is a call from the user's functions to one that is not the user's, or a call of a helper."""
    functions = places.program.functions
    callee = functions.get(instruction.callee)
    if callee is None or not places.is_users_function(functions[site[0]]):
        return False
    return callee.name in helpers or not places.is_users_function(callee)


def sites_in_order(made: list[tuple[Site, Instruction]], marks: Iterator[int], program: Program) -> Iterator[Made]:
    """What made the entries, from the marks of a run."""
    size = program.region_size()
    outside: list[Site] = []
    for mark in marks:
        if mark < 0:
            outside.pop()
            continue
        site, instruction = made[mark]
        if instruction.callee in program.functions:
            outside.append(site)
            continue
        values = [next(marks, 0) for _ in printed(instruction)]
        if makes_entry(instruction, values, size):
            yield Made((site, *reversed(outside)), tuple(values))
