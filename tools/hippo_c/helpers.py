"""Functions of the user's that only flush and fence, such as `persist(p, n)`: what they do is named by the place that calls them."""
from __future__ import annotations

from collections.abc import Iterable, Sequence

from lowering.externs import EXTERNS

from .places import Place, Places
from .program import Instruction, Site

EFFECTS = frozenset(name for name, row in EXTERNS.items() if row.effect)


class Helpers:
    """The helpers of a program: by their names in C, since they may be inlined, and by those of the lowered text."""

    def __init__(self, places: Places) -> None:
        self.places = places
        acting: set[str] = set()
        storing: set[str] = set()
        variables = variables_of(places)
        for site, instruction in places.program.sites():
            innermost = next(iter(places.of(site)), None)
            if innermost is None:
                continue
            if instruction.callee in EFFECTS:
                acting.add(innermost.function)
            elif stores(instruction, variables.get(site[0], frozenset())) or self.calls_other(instruction):
                storing.add(innermost.function)
        self.names = frozenset(acting - storing - {"main"})
        self.functions = frozenset(
            name for name, function in places.program.functions.items() if function.name_in_c in self.names
        )

    def calls_other(self, instruction: Instruction) -> bool:
        """Whether an instruction calls a function of hippo's runtime or of a library that may store."""
        callee = self.places.program.functions.get(instruction.callee)
        return callee is not None and not self.places.is_users_function(callee)

    def place(self, path: Sequence[Site]) -> Place | None:
        """The innermost place of the user's on a path that is in no helper; if all are, the outermost one."""
        return self.outside(self.places.along(path))

    def outside(self, places: Iterable[Place]) -> Place | None:
        """The first of some places, from the innermost on, that is in no helper; if all are, the last one."""
        found = None
        for found in places:
            if found.function not in self.names:
                return found
        return found


def variables_of(places: Places) -> dict[str, frozenset[str]]:
    """The registers of each function that hold the addresses of its variables."""
    return {
        name: frozenset(
            one.text.partition(" = ")[0]
            for block in function.blocks
            for one in block.instructions
            if " = alloca " in one.text
        )
        for name, function in places.program.functions.items()
    }


def stores(instruction: Instruction, variables: frozenset[str]) -> bool:
    """Whether an instruction stores to memory that is not a variable of its function."""
    if not instruction.text.startswith("store "):
        return False
    target = instruction.text.rpartition(", ptr ")[2].partition(",")[0]
    return target not in variables
