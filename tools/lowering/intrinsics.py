"""LLVM's intrinsics."""
from __future__ import annotations

import re
from typing import TYPE_CHECKING

from . import overflow
from .bit_helpers import bits_helper
from .blocks import lower_block
from .counter import read_counter
from .floats import lower_float_intrinsic
from .integers import cut, extended
from .refusals import Refused
from .types import INTEGERS, as_scalar, bits, container
from .variable_arguments import variable_copy, variable_start
from .vectors import lower_vector_intrinsic
from .wide_intrinsics import lower_wide

if TYPE_CHECKING:
    from .calls import Call
    from .function import Function

# Calls that only inform the optimiser.
WITHOUT_EFFECT = re.compile(
    r"llvm\.(lifetime|dbg|assume|experimental\.noalias|donothing|invariant|sideeffect|prefetch"
    r"|stackrestore|va_end|x86\.sse2\.pause|x86\.sse2\.lfence)\b"
)
SMALL = re.compile(r"llvm\.(fshl|fshr|ctpop|cttz|ctlz|bswap|bitreverse)\.i(\d+)$")


def is_without_effect(name: str) -> bool:
    """Whether a call of this name does nothing in hippo."""
    return bool(WITHOUT_EFFECT.match(name))


def note_left_out(function: Function, name: str) -> None:
    """Notes a call without effect in hippo that has one on a processor."""
    if name.startswith("llvm.stackrestore"):
        function.module.note("array_end")
    elif name.startswith("llvm.x86.sse2."):
        function.module.note("instruction", NAME=name.rpartition(".")[2])


def lower_intrinsic(function: Function, name: str, call: Call) -> None:
    """A call of an intrinsic."""
    if kind := re.match(r"llvm\.(memcpy|memmove|memset)(\.inline)?\.", name):
        lower_block(function, kind[1], call)
        return
    if lower_float_intrinsic(function, name, call) or lower_vector_intrinsic(function, name, call):
        return
    if call.arguments and bits(call.arguments[0].type) > 64:
        lower_wide(function, name, call)
        return
    if kind := re.match(r"llvm\.([us])(add|sub|mul)\.with\.overflow\.", name):
        overflow.with_overflow(function, kind[1], kind[2], call)
        return
    for pattern, lower in BY_NAME.items():
        if name.startswith(f"llvm.{pattern}"):
            lower(function, call)
            return
    if kind := SMALL.match(name):
        lower_small(function, kind[1], int(kind[2]), call)
    elif kind := re.match(r"llvm\.([us])(min|max)\.i\d+$", name):
        values = compared_values(function, kind[1], call)
        held, predicate = held_type(call), kind[1] + ("lt" if kind[2] == "min" else "gt")
        test = function.emit(f"icmp {predicate} {held} {values[0]}, {values[1]}")
        first, second = first_values(call)
        function.assign(call.target, f"select i1 {test}, {held} {first}, {held} {second}")
    elif kind := re.match(r"llvm\.([us])(add|sub)\.sat\.", name):
        overflow.saturated(function, kind[1], kind[2], call)
    elif kind := re.match(r"llvm\.([us])cmp\.", name):
        three_way(function, kind[1], call)
    else:
        raise Refused(f"the intrinsic @{name} has no form in the subset")


def held_type(call: Call) -> str:
    """The type of the subset that holds the first argument."""
    return container(call.arguments[0].type)


def first_values(call: Call) -> list[str]:
    """The arguments, each in one piece."""
    return [argument.values[0] for argument in call.arguments]


def compared_values(function: Function, sign: str, call: Call) -> list[str]:
    """The arguments, sign-extended if the comparison is signed."""
    values = first_values(call)
    type_ = as_scalar(call.arguments[0].type)
    if sign == "u" or type_ in INTEGERS:
        return values
    return [extended(function, type_, value) for value in values]


def lower_small(function: Function, kind: str, width: int, call: Call) -> None:
    """The intrinsics on the bits of one number, and the two funnel shifts, as calls of functions that are added."""
    values, type_ = first_values(call), container(f"i{width}")
    if kind == "cttz" and type_ != f"i{width}":
        values[0], width = function.emit(f"or {type_} {values[0]}, {1 << width}"), bits(type_)
    if kind in ("ctpop", "cttz") or kind.startswith("fsh") or type_ == f"i{width}":
        held = width if kind.startswith("fsh") else bits(type_)
        helper = function.module.helper(f"{kind}.{held}", lambda name: bits_helper(name, kind, held))
        count = 3 if kind.startswith("fsh") else 1
        given = ", ".join(f"{type_} {value}" for value in values[:count])
        function.assign(call.target, f"call {type_} {helper}({given})")
        return
    helper = function.module.helper(f"{kind}.{bits(type_)}", lambda name: bits_helper(name, kind, bits(type_)))
    whole = function.emit(f"call {type_} {helper}({type_} {values[0]})")
    rest = bits(type_) - width
    function.assign(call.target, f"sub {type_} {whole}, {rest}" if kind == "ctlz" else f"lshr {type_} {whole}, {rest}")


def three_way(function: Function, sign: str, call: Call) -> None:
    """`ucmp` and `scmp`: 1, 0 or -1."""
    result = container(call.result)
    values = compared_values(function, sign, call)
    operands = f"{held_type(call)} {values[0]}, {values[1]}"
    above = function.emit(f"icmp {sign}gt {operands}")
    below = function.emit(f"icmp {sign}lt {operands}")
    above = function.emit(f"zext i1 {above} to {result}")
    below = function.emit(f"zext i1 {below} to {result}")
    function.assign(call.target, f"sub {result} {above}, {below}")


def absolute(function: Function, call: Call) -> None:
    """`abs`."""
    type_, held, value = as_scalar(call.arguments[0].type), held_type(call), first_values(call)[0]
    signed = extended(function, type_, value)
    negated = function.emit(f"sub {held} 0, {signed}")
    test = function.emit(f"icmp slt {held} {signed}, 0")
    if type_ in INTEGERS:
        function.assign(call.target, f"select i1 {test}, {held} {negated}, {held} {value}")
        return
    chosen = function.emit(f"select i1 {test}, {held} {negated}, {held} {signed}")
    function.assign(call.target, cut(type_, chosen))


def pointer_mask(function: Function, call: Call) -> None:
    """`ptrmask`: some bits of an address."""
    pointer, mask = first_values(call)
    number = function.emit(f"ptrtoint ptr {pointer} to i64")
    masked = function.emit(f"and i64 {number}, {mask}")
    function.assign(call.target, f"inttoptr i64 {masked} to ptr")


def start_list(function: Function, call: Call) -> None:
    """`va_start`."""
    variable_start(function, first_values(call)[0])


def copy_list(function: Function, call: Call) -> None:
    """`va_copy`."""
    variable_copy(function, *first_values(call))


def time_counter(function: Function, call: Call) -> None:
    """The counter of the processor."""
    function.become(call.target, "i64", [read_counter(function)])


BY_NAME = {
    "abs.": absolute,
    "ptrmask.": pointer_mask,
    "va_start": start_list,
    "va_copy": copy_list,
    "readcyclecounter": time_counter,
    "x86.rdtsc": time_counter,
}
