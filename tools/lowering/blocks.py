"""Copies and settings of memory, as calls of functions that are added."""
from __future__ import annotations

from typing import TYPE_CHECKING

from .block_helpers import any_helper, copy_helper, parts_helper, set_helper
from .types import container

if TYPE_CHECKING:
    from .calls import Call
    from .function import Function
    from .module import Module


def lower_block(function: Function, kind: str, call: Call) -> None:
    """A copy or a setting of memory, in words if the known alignments allow it."""
    target, operand, size = call.arguments[:3]
    count = size.values[0]
    alignments = [target.alignment] if kind == "memset" else [target.alignment, operand.alignment]
    constant = int(count) if count.isdigit() else None
    if constant is None and size.type != "i64":
        count = function.emit(f"zext {container(size.type)} {count} to i64")
    known = 1 if function.module.options.unaligned else min(*alignments, 8)
    helper = helper_for(function.module, kind, known, constant)
    operand_type = "i8" if kind == "memset" else "ptr"
    function.put(f"call void {helper}(ptr {target.values[0]}, {operand_type} {operand.values[0]}, i64 {count})")


def helper_for(module: Module, kind: str, known: int, constant: int | None) -> str:
    """The function for a count of bytes, which may be constant, and an alignment."""
    step = known
    while constant is not None and constant % step:
        step //= 2
    if known == 1 and (constant is None or constant >= 8):
        by_bytes = one_step(module, kind, 1)
        return module.helper(f"{kind}.any", lambda name: any_helper(name, kind, by_bytes))
    helper = one_step(module, kind, step)
    if step == 1 or constant is not None:
        return helper
    by_bytes = one_step(module, kind, 1)
    return module.helper(f"{kind}.{step}.1", lambda name: parts_helper(name, step, kind, helper, by_bytes))


def one_step(module: Module, kind: str, step: int) -> str:
    """The function that copies or sets this many bytes at a time."""
    if kind == "memset":
        return module.helper(f"memset.{step}", lambda name: set_helper(name, step))
    return module.helper(f"{kind}.{step}", lambda name: copy_helper(name, step, kind == "memmove"))
