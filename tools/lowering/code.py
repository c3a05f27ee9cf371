"""Addresses of code. Each function whose address is taken has a number, in the order of the names, and so has each label
that is used as a value. The numbers are below every address of data, and none of them is 0, the null pointer."""
from __future__ import annotations

import re
from typing import TYPE_CHECKING

from .externs import EXTERNS
from .names import GLOBAL_NAME
from .refusals import Refused

if TYPE_CHECKING:
    from .module import Module

# Numbers are multiples of this one, as addresses of functions are, since programs keep marks in the lower bits.
STEP = 16
END = 65536
TAKEN = re.compile(GLOBAL_NAME + r"(?![-A-Za-z$._0-9(])")
# Bytes, which may look like names, and the functions of labels.
OTHERS = re.compile(r'\bc"[^"]*"|\bblockaddress\(' + GLOBAL_NAME)


class Code:
    """The numbers of functions and labels."""

    def __init__(self, module: Module) -> None:
        self.module = module
        self.functions: dict[str, int] = {}
        self.labels: dict[tuple[str, str], int] = {}

    def take(self, lines: list[str]) -> None:
        """Numbers the functions that these lines name outside of calls."""
        known = self.module.function_names
        found = set()
        for line in lines:
            if "@" not in line:
                continue
            for match in TAKEN.finditer(OTHERS.sub("", line)):
                name = self.module.resolved(match.group())
                if name in known or name[1:] in EXTERNS:
                    found.add(name)
        self.functions = {name: STEP * (rank + 1) for rank, name in enumerate(sorted(found))}

    def numbers(self) -> list[tuple[str, int]]:
        """Each function whose address is taken, with its number."""
        return list(self.functions.items())

    def address(self, written: str) -> str:
        """The address of a function, as a constant."""
        return self.constant(self.functions[written])

    def label_number(self, function: str, label: str) -> int:
        """The number of a label."""
        return self.labels.setdefault((function, label), STEP * (len(self.functions) + len(self.labels) + 1))

    def label_address(self, function: str, label: str) -> str:
        """The address of a label, as a constant."""
        return self.constant(self.label_number(function, label))

    @staticmethod
    def constant(number: int) -> str:
        """A pointer of a number."""
        if number >= END:
            raise Refused("more than 4,095 addresses of functions and labels are taken", "limit")
        return f"getelementptr (i8, ptr null, i64 {number})"
