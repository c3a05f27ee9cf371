"""Traps that a build of the lowered text keeps.

llc drops the check of a switch's value if the block of its default begins with `unreachable`: then the build would go to another
case where hippo traps. So such a block calls a function whose body is `unreachable`."""
from __future__ import annotations

from typing import TYPE_CHECKING

if TYPE_CHECKING:
    from .function import Function
    from .module import Module

TRAP = "define void {name}() {{\nentry:\n  unreachable\n}}"


def trap_function(module: Module, name: str) -> str:
    """The function of this name that traps."""
    return module.helper(name, lambda real: TRAP.format(name=real))


def trap_in_call(function: Function, name: str) -> None:
    """Ends the block of a switch's default with a trap in a function of this name."""
    function.put(f"call void {trap_function(function.module, name)}()")
    function.put("unreachable")
