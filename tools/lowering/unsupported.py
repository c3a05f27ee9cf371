"""Functions with a part that has no form in the subset: with `--trap-unsupported` each traps when it is called, before anything else that it does.

So a run that calls none of them is the run of the program, and one that calls one ends there. A function that no file of the program
defines becomes such a function too. What bears on the whole program stays refused: `main` itself, globals, and sections."""
from __future__ import annotations

import re
from typing import TYPE_CHECKING

from .externs import EXTERNS
from .jumps import JUMP, SETJMP
from .names import clean_name
from .refusals import Refused
from .start import ENDS
from .traps import TRAP
from .users import shown

if TYPE_CHECKING:
    from .function import Function
    from .module import Module

# The name of the functions that trap; a number follows it.
NAME = "no.support"
# Kinds of refusals that bear on what persistent memory is, or on how the whole program starts and ends.
OF_PROGRAM = ("section", "initialiser", "known", "main", "main_type", "main_called")


# How a declaration begins; its place is no place of the function.
DECLARE = re.compile(r"declare (?:!dbg !\d+ )?")


class Unsupported:
    """The functions of a module that trap when they are called, with the reasons."""

    def __init__(self, module: Module) -> None:
        self.module = module
        self.is_on = module.options.trap_unsupported
        # By the names of the functions that trap, and by those of the functions that call them.
        self.reasons: dict[str, str] = {}
        self.notes: dict[str, str] = {}
        self.stubs: set[str] = set()

    def takes(self, function: Function, refusal: Refused) -> bool:
        """Whether a function with a refused part becomes one that traps."""
        return self.is_on and function.written_name != "@main" and refusal.kind not in OF_PROGRAM

    def stub_heads(self, declarations: dict[str, str], defined: set[str]) -> list[str]:
        """The heads of functions for what the program calls and nobody defines."""
        if not self.is_on:
            return []
        known = {JUMP, *(f"@{name}" for name in (*EXTERNS, *SETJMP, *ENDS))} | defined
        missing = [name for name in declarations if name not in known and not name.startswith("@llvm.")]
        self.stubs = set(missing)
        self.module.own_names = self.module.own_names | {name[1:].strip('"') for name in missing}
        return [f'define {DECLARE.sub("", declarations[name])} {{' for name in missing]

    def text(self, function: Function, refusal: Refused) -> str:
        """The text of a function that traps when it is called; in C the trap has the place of what is refused."""
        head = f'define {function.signature.returned} @{self.module.names[function.written_name]}({", ".join(function.parameters)}) {{'
        named = f"{shown(refusal.missing)}: " if refusal.missing else ""
        self.notes[head] = f"{function.written_name[1:]} ({named}{refusal})"
        comment = function.comment or function.added_comment
        lines = [f"  call void {self.trap(refusal.kind, named + str(refusal))}(){comment}", f"  unreachable{comment}"]
        return "\n".join([head + function.head_comment, "entry:", *lines, "}"])

    def trap(self, kind: str, reason: str) -> str:
        """The name of the function that traps for a reason."""
        key = f"{NAME}: {kind}: {reason}"
        if key not in self.module.helpers:
            real = "@" + clean_name(NAME, self.module.taken, "g")
            self.module.helpers[key] = (real, TRAP.format(name=real))
            self.reasons[real] = f"{kind}: {reason}"
        return self.module.helpers[key][0]

    def used(self, texts: list[str]) -> list[str]:
        """The texts of functions without those stubs that no other text names; notes each function that traps."""
        if self.stubs:
            heads = [f" @{self.module.names[name]}(" for name in self.stubs]
            stubs = {text for text in texts if any(head in text.partition("\n")[0] for head in heads)}
            others = [*(text for text in texts if text not in stubs), *self.module.globals]
            others += [text for _, text in self.module.helpers.values()]
            named = set(re.findall(r"@[-\w$.]+", "\n".join(others)))
            texts = [
                text
                for text in texts
                if text not in stubs or named & set(re.findall(r"@[-\w$.]+", text[: text.index("(")]))
            ]
        for text in texts:
            if note := self.notes.get(text[: text.find("{") + 1]):
                self.module.note("unsupported", WHAT=note)
        return texts
