"""Whether the inputs of a finding about an operation are what they are said to be: that of the run after the power cut, and that without the
operation. The prints that are compared must begin where an operation begins."""
from __future__ import annotations

from collections.abc import Iterator

from .findings import Outputs
from .program import Program
from .ran import Ran, ran

ALL = 1 << 62


def cuts_of(numbers: list[int], shorter: list[int], less: int, most: int) -> Iterator[tuple[int, int]]:
    """All pieces `numbers[first:last]` without which an input is the shorter one. One number before may be lower by `less`, as it may count the
    operations, of which there are at most so many."""
    removed = len(numbers) - len(shorter)
    for first in range(len(shorter) + 1 if removed >= 0 else 0):
        others = [(own, given) for own, given in zip(numbers[:first], shorter) if own != given]
        if len(others) > 1 or any(own - given != less or own > most for own, given in others):
            break
        if numbers[first + removed :] == shorter[first:]:
            yield first, first + removed


def are_true(outputs: Outputs, first: Ran, program: Program, resumed: Program) -> bool:
    """Whether there is an operation for which the inputs and the places of the prints are right. `first` is the run before the power cut, and
    `resumed` begins with the image. Of the other runs only what they read and print counts, so no region is given."""
    after = ran(resumed, 0, outputs.resumed, ALL)
    ends = {
        last
        for head, last in cuts_of(outputs.numbers, outputs.resumed, outputs.operation, len(first.begins))
        if outputs.skips[2] in after.printed_before(head)
    }
    if not any(outputs.skips[0] in first.printed_before(end) for end in ends):
        return False
    if outputs.is_acknowledged:
        return True
    other = ran(program, 0, outputs.without, ALL)
    return any(
        last in ends and outputs.skips[1] in other.printed_before(begin)
        for begin, last in cuts_of(outputs.numbers, outputs.without, 1, len(first.begins))
    )
