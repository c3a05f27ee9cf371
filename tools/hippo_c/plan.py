"""What a repair added: compares the repaired program with the program, instruction by instruction."""
import re
from collections.abc import Callable, Collection, Iterator
from dataclasses import dataclass

from lowering.externs import FENCES

from .program import Instruction, Program, Site

CALLEE = re.compile(r"(call \S+ @)[-\w$.]+\(", re.ASCII)


@dataclass
class Insertion:
    """An instruction that the repair put after a site: in the function itself, or in the named clone."""

    site: Site
    instruction: Instruction
    clone: str = ""

    @property
    def is_fence(self) -> bool:
        """Whether the instruction is a fence."""
        return self.instruction.callee in FENCES


class Repair:
    """The insertions, the hoisted calls with their clones, and the site in the program of each repaired one."""

    def __init__(self, program: Program, repaired: Program) -> None:
        self.program, self.repaired = program, repaired
        self.insertions: list[Insertion] = []
        self.hoists: dict[Site, str] = {}
        self.clones: dict[str, str] = {}
        self.sites: dict[Site, Site] = {}
        waiting = [(name, name) for name in program.functions]
        while waiting:
            name, original = waiting.pop(0)
            for clone, called in self.match(name, original):
                if clone not in self.clones:
                    self.clones[clone] = called
                    waiting.append((clone, called))

    def match(self, name: str, original: str) -> list[tuple[str, str]]:
        """Pairs a function with its original; the clones that it calls, with their originals."""
        found = []
        clone = name if name != original else ""
        for new, old in zip(self.repaired.functions[name].blocks, self.program.functions[original].blocks):
            for index, site, is_new, instruction in paired(new.instructions, old.instructions, self.is_clone):
                place = (original, old.label, site)
                self.sites[(name, new.label, index)] = place
                called = old.instructions[site].callee
                if is_new:
                    self.insertions.append(Insertion(place, instruction, clone))
                elif instruction.callee != called:
                    found.append((instruction.callee, called))
                    if not clone:
                        self.hoists[place] = instruction.callee
        return found

    def is_clone(self, name: str) -> bool:
        """Whether the repair added a function of this name."""
        return name in self.repaired.functions and name not in self.program.functions

    def leave_out(self, checks: Collection[Site]) -> None:
        """Removes the copies of these checks of the program from the repaired program; no other instruction depends on a check."""
        for function in self.repaired.functions.values():
            for block in function.blocks:
                pairs = [
                    (self.sites.pop((function.name, block.label, index)), instruction)
                    for index, instruction in enumerate(block.instructions)
                ]
                pairs = [
                    (site, instruction)
                    for site, instruction in pairs
                    if instruction.callee != "pm_assert" or site not in checks
                ]
                block.instructions = [instruction for _, instruction in pairs]
                self.sites.update(((function.name, block.label, index), site) for index, (site, _) in enumerate(pairs))
        if not any(instruction.callee == "pm_assert" for _, instruction in self.repaired.sites()):
            self.repaired.head = [
                line for line in self.repaired.head if not line.startswith("declare void @pm_assert(")
            ]

    def site_of(self, site: Site) -> Site:
        """The site of the program from which the repair made a site of the repaired program."""
        return self.sites.get(site, site)


def inserted(new: list[Instruction], old: list[Instruction], is_clone: Callable[[str], bool]) -> set[int]:
    """The numbers of the instructions of `new` that are not in `old`.

    A repair adds instructions directly after their site, so the two are compared from their ends."""
    left, found = len(old) - 1, set()
    for index in range(len(new) - 1, -1, -1):
        one = new[index]
        plain = CALLEE.sub(r"\1(", one.text) if is_clone(one.callee) else one.text
        if left >= 0 and plain in (old[left].text, CALLEE.sub(r"\1(", old[left].text)):
            left -= 1
        else:
            found.add(index)
    return found


def paired(
    new: list[Instruction], old: list[Instruction], is_clone: Callable[[str], bool]
) -> Iterator[tuple[int, int, bool, Instruction]]:
    """For each instruction of `new`: its number, the number of the one of `old` that it copies or follows, whether the repair added it,
    and itself."""
    extra, site = inserted(new, old, is_clone), -1
    for index, instruction in enumerate(new):
        site += index not in extra
        yield index, site, index in extra, instruction
