"""Functions that call `setjmp` keep their variables in memory, where a jump finds them: LLVM's passes leave these functions out."""
from __future__ import annotations

import re

from .jumps import SETJMP

CALL = re.compile(rf'^ .*\bcall [^@\n]*@(?:{"|".join(SETJMP)})\(', re.M)
# The head of a function, up to the number of its attributes.
HEAD = re.compile(r"(define .*\)[^#]*?) #\d+ ")
LEFT_OUT = re.compile(r"^(attributes #\d+ = \{.*)\boptnone\b", re.M)


def calls_setjmp(text: str) -> bool:
    """Whether a module calls `setjmp`."""
    return CALL.search(text) is not None


def without_passes(text: str) -> str:
    """A module in which the functions that call `setjmp` have the attributes that exclude them from LLVM's passes, and no others."""
    lines = text.split("\n")
    head = 0
    for number, line in enumerate(lines):
        if line.startswith("define "):
            head = number
        elif CALL.match(line):
            lines[head] = HEAD.sub(r"\1 noinline optnone ", lines[head], count=1)
    return "\n".join(lines)


def with_passes(text: str) -> str:
    """The module for the passes that the lowering needs in each function."""
    return LEFT_OUT.sub(r"\1", text)
