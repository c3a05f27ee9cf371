"""Calls by pointer. For each type of call one function is added, which calls the function whose number the pointer is.

As on x86-64, a function may take fewer arguments than the call gives. A pointer to no such function traps."""
from __future__ import annotations

from typing import TYPE_CHECKING, NamedTuple

from .names import clean_name
from .traps import trap_function
from .types import Type, pieces

if TYPE_CHECKING:
    from .function import Signature
    from .module import Module

# The first word of the names of these functions.
DISPATCH = "call"


class CallType(NamedTuple):
    """The type of a call: its result, the pieces of its fixed arguments, and whether each is passed by value."""

    result: Type
    arguments: tuple[tuple[str, bool], ...]
    variadic: bool

    @property
    def name(self) -> str:
        """The name of the function that is added for the type."""
        result = "-".join(pieces(self.result)) or "void"
        given = ("copy" if by_value else piece for piece, by_value in self.arguments)
        return ".".join([DISPATCH, result, *given, *(["more"] if self.variadic else [])])

    @property
    def returned(self) -> str:
        """The type of the result in the lowered text; a result of several pieces goes through a pointer."""
        types = pieces(self.result)
        return types[0] if len(types) == 1 else "void"

    @property
    def parameters(self) -> list[tuple[str, str]]:
        """The types and the names of the parameters: what is called, where the result goes, the arguments, the variable ones."""
        result = [("ptr", "result")] if len(pieces(self.result)) > 1 else []
        fixed = [(piece, f"a{number}") for number, (piece, _) in enumerate(self.arguments)]
        variable = [("ptr", "variable")] if self.variadic else []
        return [("ptr", "function"), *result, *fixed, *variable]


class Dispatch:
    """The functions of a program that a pointer may name, by the type of the call."""

    def __init__(self, module: Module) -> None:
        self.module = module
        self.known: dict[CallType, list[tuple[str, int]]] = {}

    def candidates(self, type_: CallType) -> list[tuple[str, int]]:
        """The functions that a call of this type may reach, with their numbers."""
        if type_ not in self.known:
            self.known[type_] = [
                (callee, number)
                for callee, number in self.module.code.numbers()
                if takes(self.module.signature_of(callee), type_)
            ]
        return self.known[type_]

    def externs(self, type_: CallType) -> list[tuple[str, int]]:
        """Those that are hippo's own and have this type. Their flushes and fences belong to the line of C that calls them."""
        return [(callee, number) for callee, number in self.candidates(type_) if self.is_called_in_place(callee, type_)]

    def is_called_in_place(self, callee: str, type_: CallType) -> bool:
        """Whether a function is one of hippo's that takes all of the arguments."""
        is_own = callee in self.module.signatures
        return not is_own and len(self.module.signature_of(callee).parameters) == len(type_.arguments)

    def function(self, type_: CallType) -> str:
        """The name of the function that calls all others by their numbers."""
        return self.module.helper(type_.name, lambda name: self.text(name, type_))

    def text(self, name: str, type_: CallType) -> str:
        """That function: a switch over the numbers."""
        chosen = [
            (callee, number) for callee, number in self.candidates(type_) if not self.is_called_in_place(callee, type_)
        ]
        taken = dict.fromkeys(
            ["entry", "number", "entry.no.function", *(parameter for _, parameter in type_.parameters)], 1
        )
        labels = [clean_name(self.module.name_of(callee), taken, "f") for callee, _ in chosen]
        cases = "".join(f"i64 {number}, label %{label} " for (_, number), label in zip(chosen, labels))
        head = ", ".join(f"{piece} %{parameter}" for piece, parameter in type_.parameters)
        lines = [
            f"define {type_.returned} {name}({head}) {{",
            "entry:",
            "  %number = ptrtoint ptr %function to i64",
            f"  switch i64 %number, label %entry.no.function [ {cases}]",
        ]
        for (callee, _), label in zip(chosen, labels):
            if callee not in self.module.signatures:
                self.module.extern(callee[1:])
            lines += [f"{label}:", *self.arm(callee, type_, clean_name(f"{label}.result", taken, "r"))]
        return "\n".join(
            [
                *lines,
                "entry.no.function:",
                f'  call void {trap_function(self.module, "no.function")}()',
                "  unreachable",
                "}",
            ]
        )

    def arm(self, callee: str, type_: CallType, register: str) -> list[str]:
        """The call of one function, and the return of its result."""
        signature = self.module.signature_of(callee)
        names = [parameter for _, parameter in type_.parameters]
        given = [f"ptr %{name}" for name in names if name == "result"]
        given += [f"{piece} %a{number}" for number, piece in enumerate(signature.parameters)]
        given += ["ptr %variable"] if signature.variadic else []
        call = f'call {signature.returned} @{self.module.name_of(callee)}({", ".join(given)})'
        if type_.returned == "void":
            return [f"  {call}", "  ret void"]
        return [f"  %{register} = {call}", f"  ret {type_.returned} %{register}"]


def takes(signature: Signature, type_: CallType) -> bool:
    """Whether a function may be called by a pointer of this type: its parameters are the first of the arguments."""
    if type_.result not in ("void", signature.result) and pieces(type_.result) != pieces(signature.result):
        return False
    if signature.by_pointer and type_.result == "void":
        return False
    wanted = tuple(zip(signature.parameters, signature.by_value))
    if signature.variadic:
        return type_.variadic and type_.arguments == wanted
    return type_.arguments[: len(wanted)] == wanted
