"""Jumps between the functions of a program: where one is caught, and what the model does at one."""
from __future__ import annotations

from collections.abc import Callable
from dataclasses import dataclass

from .model import Region
from .operations import Operation
from .places import Index, Values

Run = Callable[[Region, Values], None]


class Jump(Exception):
    """A `longjmp` with a value."""

    def __init__(self, value: int) -> None:
        super().__init__(value)
        self.value = value or 1


@dataclass
class Catching:
    """The places that catch the jumps of a program: the innermost that waits is in a global.

    As the model runs, `waiting` counts the places that wait, and `jumps` those that have happened."""

    prefix: str
    waiting: int = 0
    jumps: int = 0

    @property
    def declaration(self) -> str:
        """The global."""
        return f"static jmp_buf *{self.prefix}to;"

    def jump(self, condition: Index, value: Index) -> Operation:
        """A jump, if a number is odd and a place waits."""

        def run(_: Region, values: Values) -> None:
            if self.waiting and condition.of(values) & 1:
                self.jumps += 1
                raise Jump(value.of(values))

        return Operation(
            f"if ({self.prefix}to && {condition.text} & 1) longjmp(*{self.prefix}to, (int){value.text});", run
        )

    def catch(self, parts: list[Operation], after: list[tuple[list[str], Run]]) -> Operation:
        """Operations whose jumps go on to one of some others: the first of these after the value 1, the last after any other value.

        A volatile counter says how many of the operations ended."""
        to = f"{self.prefix}to"
        lines = [
            f"{{ jmp_buf at, *kept = {to}; volatile long ended = 0;",
            "switch (setjmp(at)) {",
            "  case 0:",
            f"    {to} = &at;",
        ]
        lines += [
            line for part in parts for line in (*(f"    {line}" for line in part.text.split("\n")), "    ended++;")
        ]
        lines += [f"    {to} = kept;", "    break;"]
        for head, (body, _) in zip(("  case 1: {", "  default: {"), after):
            lines += [head, f"    {to} = kept;", *(f"    {line}" for line in body), "    break;", "  }"]

        def run(region: Region, values: Values) -> None:
            self.waiting += 1
            try:
                for part in parts:
                    part.run(region, values)
            except Jump as jump:
                self.waiting -= 1
                after[jump.value != 1][1](region, values)
            else:
                self.waiting -= 1

        return Operation("\n".join([*lines, "}", "mix(ended); }"]), run)
