"""Sums, differences and products that say whether they are exact, and those that stay within their width."""
from __future__ import annotations

from typing import TYPE_CHECKING

from .integers import cut, extended
from .refusals import Refused
from .types import INTEGERS, as_scalar, bits, container
from .wide import high_product

if TYPE_CHECKING:
    from .calls import Call
    from .function import Function


def with_overflow(function: Function, sign: str, word: str, call: Call) -> None:
    """`llvm.*.with.overflow`: the value, and whether it was cut."""
    type_ = as_scalar(call.arguments[0].type)
    first, second = (argument.values[0] for argument in call.arguments)
    value, is_cut = exact(function, sign, word, type_, first, second)
    function.become(call.target, call.result, [value, is_cut])


def exact(function: Function, sign: str, word: str, type_: str, first: str, second: str) -> tuple[str, str]:
    """The value of an operation, and whether its width cuts it."""
    if type_ not in INTEGERS or word == "mul" and bits(type_) < 64:
        return by_width(function, sign, word, type_, first, second)
    value = function.emit(f"{word} {type_} {first}, {second}")
    if word == "mul":
        return value, product_is_cut(function, sign, value, first, second)
    if sign == "u":
        compared = (value, first) if word == "add" else (first, second)
        return value, function.emit(f"icmp ult {type_} {compared[0]}, {compared[1]}")
    # The sign of a sum is wrong where both terms have the other one; of a difference where the terms' signs differ.
    one = function.emit(f'xor {type_} {first}, {second if word == "sub" else value}')
    other = function.emit(f'xor {type_} {first if word == "sub" else second}, {value}')
    both = function.emit(f"and {type_} {one}, {other}")
    return value, function.emit(f'icmp slt {type_} {both}, {"false" if type_ == "i1" else 0}')


def by_width(function: Function, sign: str, word: str, type_: str, first: str, second: str) -> tuple[str, str]:
    """The same in twice the width, in which nothing is cut."""
    held = container(type_)
    wide = "i64" if bits(type_) < 33 else ""
    if not wide:
        if word == "mul":
            raise Refused(f"an overflow of {type_}", "width")
        wide = held
    grown = []
    for value in (first, second):
        value = extended(function, type_, value) if sign == "s" else value
        extension = "sext" if sign == "s" else "zext"
        grown.append(value if held == wide else function.emit(f"{extension} {held} {value} to {wide}"))
    whole = function.emit(f"{word} {wide} {grown[0]}, {grown[1]}")
    value = whole if held == wide else function.emit(f"trunc {wide} {whole} to {held}")
    if type_ != held:
        value = function.emit(cut(type_, value))
    back = extended(function, type_, value) if sign == "s" else value
    back = back if held == wide else function.emit(f'{"sext" if sign == "s" else "zext"} {held} {back} to {wide}')
    return value, function.emit(f"icmp ne {wide} {back}, {whole}")


def product_is_cut(function: Function, sign: str, low: str, first: str, second: str) -> str:
    """Whether a product of two numbers of 64 bits has more bits."""
    high = high_product(function, first, second)
    if sign == "u":
        return function.emit(f"icmp ne i64 {high}, 0")
    for one, other in ((first, second), (second, first)):
        negative = function.emit(f"icmp slt i64 {one}, 0")
        less = function.emit(f"select i1 {negative}, i64 {other}, i64 0")
        high = function.emit(f"sub i64 {high}, {less}")
    above = function.emit(f"ashr i64 {low}, 63")
    return function.emit(f"icmp ne i64 {high}, {above}")


def saturated(function: Function, sign: str, word: str, call: Call) -> None:
    """`llvm.*.sat`: the value, or the bound that it passes."""
    type_ = as_scalar(call.arguments[0].type)
    first, second = (argument.values[0] for argument in call.arguments)
    if type_ in INTEGERS and sign == "u":
        unsigned_saturated(function, word, type_, first, second, call.target)
        return
    value, is_cut = exact(function, sign, word, type_, first, second)
    held, width = container(type_), bits(type_)
    if sign == "u":
        bound = "0" if word == "sub" else str((1 << width) - 1)
    else:
        signed = extended(function, type_, first)
        negative = function.emit(f'icmp slt {held} {signed}, {"false" if held == "i1" else 0}')
        least, most = 1 << width - 1, (1 << width - 1) - 1
        if type_ in INTEGERS:
            least = -least
        bound = function.emit(f"select i1 {negative}, {held} {spelled(held, least)}, {held} {spelled(held, most)}")
    function.assign(call.target, f"select i1 {is_cut}, {held} {bound}, {held} {value}")


def spelled(held: str, number: int) -> str:
    """A number under a type."""
    return ("true" if number else "false") if held == "i1" else str(number)


def unsigned_saturated(function: Function, word: str, type_: str, first: str, second: str, target: str) -> None:
    """A sum of at most all ones, or a difference of at least 0."""
    value = function.emit(f"{word} {type_} {first}, {second}")
    if word == "sub":
        test = function.emit(f"icmp ult {type_} {first}, {second}")
        bound = "false" if type_ == "i1" else "0"
    else:
        test = function.emit(f"icmp ult {type_} {value}, {first}")
        bound = "true" if type_ == "i1" else "-1"
    function.assign(target, f"select i1 {test}, {type_} {bound}, {type_} {value}")
