"""The clones of a repair: how many flushes each has, and which call made very many of them, and why."""
from __future__ import annotations

from lowering.names import shortened

from .diagnostics import Printer
from .plan import Repair
from .program import Function, Site

# A call that makes more clones than this gets a note with the reason. A list shows this many clones, and counts the others together.
MANY_CLONES = 32


def counted(number: int, one: str, many: str) -> str:
    """A number with the word for one or for many."""
    return f"{number:,} {one if number == 1 else many}"


def print_clones(printer: Printer, found: Repair) -> None:
    """A line for each clone, and one for those beyond MANY_CLONES."""
    flushes = dict.fromkeys(found.clones, 0)
    for item in found.insertions:
        if item.clone and not item.is_fence:
            flushes[item.clone] += 1
    for clone, original in list(found.clones.items())[:MANY_CLONES]:
        function = found.program.functions[original]
        what = "a call by pointer" if function.is_dispatch else f"'{shortened(function.name_in_c)}'"
        printer.line(f"clone of {what}: {counted(flushes[clone], 'flush', 'flushes')}")
    if len(found.clones) > MANY_CLONES:
        rest = sum(list(flushes.values())[MANY_CLONES:])
        printer.line(f"{len(found.clones) - MANY_CLONES:,} more clones: {counted(rest, 'flush', 'flushes')}")


def why_many(found: Repair, site: Site) -> str:
    """What a note adds to a call that goes to a clone, if it makes very many clones: how many, and why."""
    reached = clones_of(found, found.hoists[site])
    if len(reached) <= MANY_CLONES:
        return ""
    made = f"; {len(reached):,} clones in all, since it comes to"
    by_pointer = [clone for clone in reached if found.program.functions[found.clones[clone]].is_dispatch]
    if not by_pointer:
        return f"{made} many functions that may store"
    most = max(sum(not is_added(found, name) for name in called_by(found, clone)) for clone in by_pointer)
    return f"{made} a call by pointer, which may call {counted(most, 'function', 'functions')}"


def is_added(found: Repair, clone: str) -> bool:
    """Whether tools/lower added the original of a clone: where no function has the number of a pointer, it traps."""
    return found.program.functions[found.clones[clone]].added


def clones_of(found: Repair, clone: str) -> set[str]:
    """A clone and those that its calls reach."""
    reached, waiting = {clone}, [clone]
    while waiting:
        for name in called_by(found, waiting.pop()) - reached:
            reached.add(name)
            waiting.append(name)
    return reached


def called_by(found: Repair, clone: str) -> set[str]:
    """The clones that a function of the repaired program calls."""
    return {name for name in callees(found.repaired.functions[clone]) if name in found.clones}


def callees(function: Function) -> set[str]:
    """The functions that a function calls by name."""
    return {instruction.callee for block in function.blocks for instruction in block.instructions if instruction.callee}
