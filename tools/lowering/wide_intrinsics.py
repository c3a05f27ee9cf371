"""LLVM's intrinsics on integers of 65 to 128 bits."""
from __future__ import annotations

import re
from typing import TYPE_CHECKING

from .bit_helpers import bits_helper
from .refusals import Refused
from .types import bits
from .wide import binary, compare, joined, shifted, sum_of

if TYPE_CHECKING:
    from .calls import Call
    from .function import Function


def lower_wide(function: Function, name: str, call: Call) -> None:
    """A call of an intrinsic whose first argument is wide."""
    width = bits(call.arguments[0].type)
    values = [argument.values for argument in call.arguments]
    if width > 128:
        raise Refused(f"the intrinsic @{name} has no form in the subset", "width")
    if kind := re.match(r"llvm\.(ctlz|cttz|ctpop)\.", name):
        found = counted(function, kind[1], width, values[0])
    elif kind := re.match(r"llvm\.(bswap|bitreverse)\.", name):
        found = turned(function, kind[1], width, values[0])
    elif kind := re.match(r"llvm\.([us])(min|max)\.", name):
        predicate = f'{kind[1]}{"lt" if kind[2] == "min" else "gt"}'
        found = chosen(function, compare(function, predicate, width, values[0], values[1]), values[0], values[1])
    elif name.startswith("llvm.abs."):
        negated = binary(function, "sub", width, ["0", "0"], values[0])
        found = chosen(function, compare(function, "slt", width, values[0], ["0", "0"]), negated, values[0])
    elif (kind := re.match(r"llvm\.fsh([lr])\.", name)) and width == 128:
        found = funnel(function, kind[1], *values)
    elif (kind := re.match(r"llvm\.([us])(add|sub)\.with\.overflow\.", name)) and width == 128:
        found = with_overflow(function, kind[1], kind[2], values[0], values[1])
    else:
        raise Refused(f"the intrinsic @{name} has no form in the subset", "width")
    function.become(call.target, call.result, found)


def counted(function: Function, kind: str, width: int, value: list[str]) -> list[str]:
    """The number of bits that are set, or of leading or trailing zeros."""
    low, high = value
    if kind == "cttz" and width < 128:
        high = function.emit(f"or i64 {high}, {1 << width - 64}")
    helper = function.module.helper(f"{kind}.64", lambda name: bits_helper(name, kind, 64))
    counts = [function.emit(f"call i64 {helper}(i64 {half})") for half in (low, high)]
    if kind == "ctpop":
        return [function.emit(f"add i64 {counts[0]}, {counts[1]}"), "0"]
    first, second = (low, 0) if kind == "cttz" else (high, 1)
    none = function.emit(f"icmp eq i64 {first}, 0")
    both = function.emit(f"add i64 {counts[0]}, {counts[1]}")
    count = function.emit(f"select i1 {none}, i64 {both}, i64 {counts[second]}")
    if kind == "ctlz" and width < 128:
        count = function.emit(f"sub i64 {count}, {128 - width}")
    return [count, "0"]


def turned(function: Function, kind: str, width: int, value: list[str]) -> list[str]:
    """The bytes, or the bits, in reverse order."""
    helper = function.module.helper(f"{kind}.64", lambda name: bits_helper(name, kind, 64))
    high, low = (function.emit(f"call i64 {helper}(i64 {half})") for half in value)
    return shifted(function, "lshr", [low, high], str(128 - width))


def chosen(function: Function, test: str, one: list[str], other: list[str]) -> list[str]:
    """The first value where the instruction gives true, else the second."""
    held = function.emit(test)
    return [function.emit(f"select i1 {held}, i64 {first}, i64 {second}") for first, second in zip(one, other)]


def funnel(function: Function, side: str, high: list[str], low: list[str], amount: list[str]) -> list[str]:
    """One half of 256 bits that are shifted."""
    left = function.emit(f"and i64 {amount[0]}, 127")
    right = function.emit(f"sub i64 127, {left}")
    if side == "l":
        kept = shifted(function, "shl", high, left)
        carried = shifted(function, "lshr", shifted(function, "lshr", low, "1"), right)
    else:
        kept = shifted(function, "lshr", low, left)
        carried = shifted(function, "shl", shifted(function, "shl", high, "1"), right)
    return [joined(function, one, other) for one, other in zip(kept, carried)]


def with_overflow(function: Function, sign: str, word: str, first: list[str], second: list[str]) -> list[str]:
    """A sum or a difference, and whether it is cut."""
    low, high = sum_of(function, word, first, second)
    if sign == "u":
        compared = ([low, high], first) if word == "add" else (first, second)
        return [low, high, function.emit(compare(function, "ult", 128, *compared))]
    one = function.emit(f'xor i64 {first[1]}, {second[1] if word == "sub" else high}')
    other = function.emit(f'xor i64 {first[1] if word == "sub" else second[1]}, {high}')
    both = function.emit(f"and i64 {one}, {other}")
    return [low, high, function.emit(f"icmp slt i64 {both}, 0")]
