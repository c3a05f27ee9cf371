"""Integers above 64 bits: pieces of 64 bits, the lowest first; the last one has zeros above the width."""
from __future__ import annotations

from functools import partial
from typing import TYPE_CHECKING

from .bit_helpers import high_product_helper, shift_helper
from .refusals import Refused
from .types import bits, container

if TYPE_CHECKING:
    from .function import Function


def binary(function: Function, word: str, width: int, first: list[str], second: list[str]) -> list[str]:
    """The pieces of the value of an operation."""
    if word in ("and", "or", "xor"):
        return [bitwise(function, word, one, other) for one, other in zip(first, second)]
    if word in ("add", "sub"):
        found = sum_of(function, word, first, second)
    elif word == "mul" and len(first) == 2:
        found = product(function, first, second)
    elif word in ("shl", "lshr", "ashr"):
        if word == "ashr":
            first = extended(function, width, first)
        found = shifted(function, word, first, second[0])
    else:
        raise Refused(f"{word} of i{width}", "width")
    return cut(function, width, found)


def bitwise(function: Function, word: str, one: str, other: str) -> str:
    """`and`, `or` or `xor` of two pieces; with 0 there is no instruction."""
    if word == "and" and "0" in (one, other):
        return "0"
    return joined(function, one, other, word)


def joined(function: Function, one: str, other: str, word: str = "or") -> str:
    """Two pieces joined by an instruction, or the other piece if one is 0."""
    if word != "and" and "0" in (one, other):
        return other if one == "0" else one
    return function.emit(f"{word} i64 {one}, {other}")


def cut(function: Function, width: int, value: list[str]) -> list[str]:
    """A value with zeros above its width in its last piece."""
    if width % 64 == 0 or value[-1] == "0":
        return value
    return [*value[:-1], function.emit(f"and i64 {value[-1]}, {(1 << width % 64) - 1}")]


def extended(function: Function, width: int, value: list[str]) -> list[str]:
    """A value with its sign above its width in its last piece."""
    if width % 64 == 0:
        return value
    raised = function.emit(f"shl i64 {value[-1]}, {64 - width % 64}")
    return [*value[:-1], function.emit(f"ashr i64 {raised}, {64 - width % 64}")]


def sum_of(function: Function, word: str, first: list[str], second: list[str]) -> list[str]:
    """A sum or a difference, with the carry from piece to piece."""
    found, carry = [], ""
    for number, (one, other) in enumerate(zip(first, second)):
        value = function.emit(f"{word} i64 {one}, {other}")
        last = number == len(first) - 1
        carries = [] if last else [carried(function, word, value, one, other)]
        if carry:
            before, value = value, function.emit(f"{word} i64 {value}, {carry}")
            if not last:
                carries.append(carried(function, word, value, before, carry))
        found.append(value)
        if carries:
            both = carries[0] if len(carries) == 1 else function.emit(f"or i1 {carries[0]}, {carries[1]}")
            carry = function.emit(f"zext i1 {both} to i64")
    return found


def carried(function: Function, word: str, value: str, one: str, other: str) -> str:
    """Whether a sum of two pieces, or a difference, is cut."""
    compared = (value, one) if word == "add" else (one, other)
    return function.emit(f"icmp ult i64 {compared[0]}, {compared[1]}")


def product(function: Function, first: list[str], second: list[str]) -> list[str]:
    """A product modulo 2^128; terms of pieces that are 0 are left out."""
    low = function.emit(f"mul i64 {first[0]}, {second[0]}")
    high = high_product(function, first[0], second[0])
    for one, other in ((first[0], second[1]), (first[1], second[0])):
        if "0" not in (one, other):
            term = function.emit(f"mul i64 {one}, {other}")
            high = function.emit(f"add i64 {high}, {term}")
    return [low, high]


def high_product(function: Function, first: str, second: str) -> str:
    """The upper 64 bits of the product of two numbers of 64 bits without signs."""
    helper = function.module.helper("mul.high.64", high_product_helper)
    return function.emit(f"call i64 {helper}(i64 {first}, i64 {second})")


def shifted(function: Function, word: str, value: list[str], amount: str) -> list[str]:
    """A value of whole pieces, shifted."""
    if not amount.startswith("%"):
        return shifted_by(function, word, value, int(amount))
    if len(value) > 2:
        raise Refused(f"{word} of more than 128 bits by an amount that is not constant", "width")
    found = []
    for part in ("low", "high"):
        helper = function.module.helper(f"{word}.128.{part}", partial(shift_helper, word=word, part=part))
        found.append(function.emit(f"call i64 {helper}(i64 {value[0]}, i64 {value[1]}, i64 {amount})"))
    return found


def shifted_by(function: Function, word: str, value: list[str], amount: int) -> list[str]:
    """A value of whole pieces, shifted by a constant: each piece is made of two that follow one another."""
    count, (whole, rest) = len(value), divmod(amount, 64)
    above = function.emit(f"ashr i64 {value[-1]}, 63") if word == "ashr" and amount else "0"

    def piece(number: int) -> str:
        """A piece of the value, or of the bits below or above it."""
        return "0" if number < 0 else value[number] if number < count else above

    if word == "shl":
        pairs = [(piece(number - whole), piece(number - whole - 1)) for number in range(count)]
        return [
            joined(function, one_shift(function, "shl", one, rest), one_shift(function, "lshr", other, 64 - rest))
            if rest
            else one
            for one, other in pairs
        ]
    found = []
    for number in range(count):
        one, other = piece(number + whole), piece(number + whole + 1)
        if not rest:
            found.append(one)
        elif number + whole == count - 1:
            found.append(one_shift(function, word, one, rest))
        elif number + whole >= count:
            found.append(above)
        else:
            lowered = one_shift(function, "lshr", one, rest)
            found.append(joined(function, lowered, one_shift(function, "shl", other, 64 - rest)))
    return found


def one_shift(function: Function, word: str, value: str, amount: int) -> str:
    """A piece, shifted."""
    return value if value == "0" else function.emit(f"{word} i64 {value}, {amount}")


def compare(function: Function, predicate: str, width: int, first: list[str], second: list[str]) -> str:
    """The instruction that compares two values."""
    if predicate in ("eq", "ne"):
        found = "0"
        for one, other in zip(first, second):
            found = joined(function, found, bitwise(function, "xor", one, other))
        return f"icmp {predicate} i64 {found}, 0"
    if predicate[0] == "s":
        first, second = extended(function, width, first), extended(function, width, second)
    found = f"icmp u{predicate[1:]} i64 {first[0]}, {second[0]}"
    for number in range(1, len(first)):
        sign = predicate[0] if number == len(first) - 1 else "u"
        below = function.emit(found)
        above = function.emit(f"icmp {sign}{predicate[1]}t i64 {first[number]}, {second[number]}")
        same = function.emit(f"icmp eq i64 {first[number]}, {second[number]}")
        found = f"select i1 {same}, i1 {below}, i1 {above}"
    return found


def cast(function: Function, word: str, source: str, result: str, value: list[str]) -> list[str]:
    """The pieces of a value in another width, where one of the two is wide."""
    count = -(-bits(result) // 64)
    if word == "trunc":
        if bits(result) > 64:
            return cut(function, bits(result), value[:count])
        return [truncated(function, value[0], result)]
    if bits(source) <= 64:
        widen = sign_extended if word == "sext" else zero_extended
        value = [widen(function, source, value[0])]
    elif word == "sext":
        value = extended(function, bits(source), value)
    if word == "zext":
        return value + ["0"] * (count - len(value))
    missing = count - len(value)
    sign = function.emit(f"ashr i64 {value[-1]}, 63") if missing else ""
    return cut(function, bits(result), value + [sign] * missing)


def zero_extended(function: Function, source: str, value: str) -> str:
    """A narrow value in 64 bits."""
    held = container(source)
    return value if held == "i64" else function.emit(f"zext {held} {value} to i64")


def sign_extended(function: Function, source: str, value: str) -> str:
    """A narrow value in 64 bits, with its sign."""
    low, rest = zero_extended(function, source, value), 64 - bits(source)
    if not rest:
        return low
    raised = function.emit(f"shl i64 {low}, {rest}")
    return function.emit(f"ashr i64 {raised}, {rest}")


def truncated(function: Function, low: str, result: str) -> str:
    """The low bits of a piece, in a narrow type."""
    held = container(result)
    value = low if held == "i64" else function.emit(f"trunc i64 {low} to {held}")
    return value if held == result else function.emit(f"and {held} {value}, {(1 << bits(result)) - 1}")
