"""Integers: operations, comparisons and conversions, and choices between values.

An integer whose width the subset does not have is held in the next greater width of the subset, with zeros in the upper bits."""
from __future__ import annotations

import re
from typing import TYPE_CHECKING

from . import wide
from .constants import BINARY, CASTS, FLAGS
from .refusals import Refused
from .tokens import FAST_MATH, Tokens
from .types import INTEGERS as OF_THE_SUBSET
from .types import Type, bits, container, pieces, show_type
from .values import read_operand
from .writer import Instruction

if TYPE_CHECKING:
    from .function import Function

SHIFTS = ("shl", "lshr", "ashr")
SIGNED = ("sdiv", "srem", "ashr")
GROWING = ("add", "sub", "mul", "shl", "sdiv", "srem", "ashr")
WIDENED = re.compile(r"%\S+ = zext (?:nneg )?i\d+ (%\S+) to")
IN_RANGE = re.compile(r"%\S+ = (?:and|urem) i\d+ .*, (\d+)$")


def binary(function: Function, tokens: Tokens, target: str, word: str) -> None:
    """An operation on two integers."""
    tokens.take_all(FLAGS)
    type_ = function.integer(tokens)
    first_pieces = read_operand(function, tokens, type_)
    tokens.take(",")
    written = tokens.peek()
    second_pieces = read_operand(function, tokens, type_)
    if bits(type_) > 64:
        function.become(target, type_, wide.binary(function, word, bits(type_), first_pieces, second_pieces))
        return
    first, second = first_pieces[0], second_pieces[0]
    held = container(type_)
    if word in SHIFTS and second.startswith("%") and not is_in_range(function, written, bits(type_)):
        # LLVM may compute a shift before the test that guards it: the value is not used where the amount is too large.
        second = "false" if held == "i1" else function.emit(f"and {held} {second}, {bits(held) - 1}")
    if type_ in OF_THE_SUBSET:
        function.assign(target, f"{word} {held} {first}, {second}")
        return
    if word in SIGNED:
        first = extended(function, type_, first)
        second = second if word == "ashr" else extended(function, type_, second)
    if word not in GROWING:
        function.assign(target, f"{word} {held} {first}, {second}")
        return
    function.assign(target, cut(type_, function.emit(f"{word} {held} {first}, {second}")))


def is_in_range(function: Function, written: str, width: int) -> bool:
    """Whether the line that assigns a register shows that it is below a width."""
    line = function.definitions.get(written, "")
    if widened := WIDENED.match(line):
        line = function.definitions.get(widened[1], "")
    found = IN_RANGE.match(line)
    return found is not None and int(found[1]) < width


def cut(type_: str, value: str) -> str:
    """The instruction that cuts a value to its width, in a register of the next width."""
    return f"and {container(type_)} {value}, {(1 << bits(type_)) - 1}"


def extended(function: Function, type_: str, value: str) -> str:
    """A value with its sign in the bits above its width."""
    held = container(type_)
    rest = bits(held) - bits(type_)
    if not rest:
        return value
    raised = function.emit(f"shl {held} {value}, {rest}")
    return function.emit(f"ashr {held} {raised}, {rest}")


def number_or_pointer(type_: Type) -> str:
    """The type itself, which must be that of an integer or of a pointer."""
    if isinstance(type_, str) and (type_ == "ptr" or bits(type_)):
        return type_
    raise Refused(f"{show_type(type_)} where a scalar stands")


def compare(function: Function, tokens: Tokens, target: str, _word: str) -> None:
    """`icmp`."""
    tokens.take_all(FLAGS)
    predicate = tokens.take()
    type_ = number_or_pointer(function.type(tokens))
    first_pieces = read_operand(function, tokens, type_)
    tokens.take(",")
    second_pieces = read_operand(function, tokens, type_)
    if bits(type_) > 64:
        function.assign(target, wide.compare(function, predicate, bits(type_), first_pieces, second_pieces))
        return
    first, second = first_pieces[0], second_pieces[0]
    if predicate.startswith("s") and type_ != "ptr" and type_ not in OF_THE_SUBSET:
        first, second = extended(function, type_, first), extended(function, type_, second)
    function.assign(target, f"icmp {predicate} {container(type_)} {first}, {second}")


def cast(function: Function, tokens: Tokens, target: str, word: str) -> None:
    """A conversion between widths, or between numbers and pointers."""
    tokens.take_all(FLAGS)
    written, value = function.argument(tokens)
    tokens.take("to")
    source, result = number_or_pointer(written), number_or_pointer(function.type(tokens))
    if word == "ptrtoint" and result not in OF_THE_SUBSET:
        source, value, word = "i64", [function.emit(f"ptrtoint ptr {value[0]} to i64")], "zext"
        word = "trunc" if bits(result) < 64 else "zext"
    if word == "inttoptr" and source not in OF_THE_SUBSET:
        source, value = "i64", [widened(function, source, value, "i64")]
    if bits(source) > 64 or bits(result) > 64:
        function.become(target, result, wide.cast(function, word, source, result, value))
        return
    function.assign(target, narrow_cast(function, word, source, result, value[0]))


def widened(function: Function, source: str, value: list[str], held: str) -> str:
    """The low 64 bits of a value, in another type of the subset."""
    if bits(source) > 64 or container(source) == held:
        return value[0]
    return function.emit(f"zext {container(source)} {value[0]} to {held}")


def narrow_cast(function: Function, word: str, source: str, result: str, value: str) -> str:
    """The instruction for a conversion between types of up to 64 bits."""
    if all(type_ in OF_THE_SUBSET or type_ == "ptr" for type_ in (source, result)):
        return f"{word} {source} {value} to {result}"
    from_held, to_held = container(source), container(result)
    if word == "sext":
        value = extended(function, source, value)
    if word == "trunc":
        value = value if from_held == to_held else function.emit(f"trunc {from_held} {value} to {to_held}")
        return cut(result, value)
    if from_held != to_held:
        if word == "zext" or result in OF_THE_SUBSET:
            return f"{word} {from_held} {value} to {to_held}"
        value = function.emit(f"sext {from_held} {value} to {to_held}")
    return cut(result, value)


def select(function: Function, tokens: Tokens, target: str, _word: str) -> None:
    """`select`, piece by piece."""
    tokens.take_all(FAST_MATH)
    condition_type, condition = function.argument(tokens)
    if condition_type != "i1":
        raise Refused(f"select by {show_type(condition_type)}")
    tokens.take(",")
    type_, first = function.argument(tokens)
    tokens.take(",")
    _, second = function.argument(tokens)
    for register, piece, one, other in zip(function.results(target, type_), pieces(type_), first, second):
        function.put(f"{register} = select i1 {condition[0]}, {piece} {one}, {piece} {other}")


INSTRUCTIONS: dict[str, Instruction] = {
    **dict.fromkeys(BINARY, binary),
    **dict.fromkeys(CASTS, cast),
    "icmp": compare,
    "select": select,
}
