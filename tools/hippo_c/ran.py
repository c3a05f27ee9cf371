"""In which order a run made its entries, read its numbers and printed others, and at which sites: a marked copy of the program says it."""
from __future__ import annotations

from dataclasses import dataclass, field

from lowering.externs import FENCES

from .entries import makes_entry, printed
from .hooked import last_name
from .marking import PRINTS, marked_run, marked_text
from .program import Instruction, Program, Site

READS, OPERATION = "read_i64", "hippo_op"


@dataclass
class Ran:
    """The site of each entry of a run after the header; for each number that the run printed the count of the entries before it, and its site;
    and for each place where an operation may begin the counts of the numbers that were read and printed before. If the program calls hippo_op,
    these are its calls, and otherwise all reads."""

    entries: list[Site] = field(default_factory=list)
    prints: list[tuple[int, Site]] = field(default_factory=list)
    begins: list[tuple[int, int]] = field(default_factory=list)

    def printed_at(self, entries: int) -> range:
        """How many numbers may be printed when a power cut comes after so many entries and before the next one."""
        least = sum(before < entries for before, _ in self.prints)
        return range(least, sum(before <= entries for before, _ in self.prints) + 1)

    def printed_before(self, reads: int) -> set[int]:
        """How many numbers may be printed before an operation that begins after so many reads, or before the end."""
        return {prints for count, prints in self.begins if count == reads} | {len(self.prints)}


def ran(program: Program, size: int, numbers: list[int], most: int) -> Ran:
    """What a run does until it has made so many entries and one more, or ends. The region has this size."""
    made = [(site, instruction) for site, instruction in program.sites() if is_marked(instruction)]
    by_site: dict[Site, tuple[list[str], list[str]]] = {
        site: ([str(number), *printed(instruction)], []) for number, (site, instruction) in enumerate(made)
    }
    text = marked_text(program, lambda site, _: by_site.get(site, ([], [])))
    marks_operations = any(last_name(instruction.callee) == OPERATION for _, instruction in made)
    found, reads = Ran(), 0
    with marked_run(text, numbers) as run:
        marks = run.marks()
        for mark in marks:
            site, instruction = made[mark]
            if instruction.callee == PRINTS:
                found.prints.append((len(found.entries), site))
            elif instruction.callee == READS or last_name(instruction.callee) == OPERATION:
                if (instruction.callee == READS) != marks_operations:
                    found.begins.append((reads, len(found.prints)))
                reads += instruction.callee == READS
            elif makes_entry(instruction, [next(marks, 0) for _ in printed(instruction)], size):
                found.entries.append(site)
                if len(found.entries) > most:
                    break
    return found


def is_marked(instruction: Instruction) -> bool:
    """Whether an instruction may make an entry, reads or prints a number, or begins an operation."""
    callee = instruction.callee
    return (
        callee in (PRINTS, READS, *FENCES, "pm_assert") or last_name(callee) == OPERATION or bool(printed(instruction))
    )
