"""Vectors. LLVM's scalarizer has made scalar operations of those on their elements. What remains moves vectors, takes them apart and
puts them together: a register has a piece for each element, and memory is accessed in words of 64 bits, as a processor stores them."""
from __future__ import annotations

import re
from typing import TYPE_CHECKING

from .refusals import Refused
from .tokens import Tokens
from .types import Type, as_integer, container, pieces, show_type, width
from .writer import Instruction

if TYPE_CHECKING:
    from .calls import Call
    from .function import Function

WORD = 64
USED = re.compile(r"<\d+ x ")
REDUCED = re.compile(r"llvm\.vector\.reduce\.(add|mul|and|or|xor|umin|umax|smin|smax)\.v\d+i\d+$")
# Operations on elements of twice the width: whether these have a sign, and how far the result is shifted down.
WIDENED = {
    "pavg.b": ("add", False, 1),
    "pavg.w": ("add", False, 1),
    "pmulh.w": ("mul", True, 16),
    "pmulhu.w": ("mul", False, 16),
}
PACKED = {"packsswb.128": (8, True), "packssdw.128": (16, True), "packuswb.128": (8, False), "packusdw": (16, False)}


def elements(type_: Type) -> tuple[int, Type]:
    """The number and the type of the elements; a scalar is its only one."""
    return (type_[1], type_[2]) if isinstance(type_, tuple) and type_[0] == "vector" else (1, type_)


def as_number(function: Function, type_: Type, value: str, held: str) -> str:
    """An element's bits in a wider integer."""
    if type_ == "ptr":
        value, type_ = function.emit(f"ptrtoint ptr {value} to i64"), "i64"
    own = container(as_integer(type_))
    return value if own == held else function.emit(f"zext {own} {value} to {held}")


def joined(function: Function, type_: Type, values: list[str]) -> list[str]:
    """The bits of a vector or a scalar in words, the lowest first; fewer bits than a word are in the integer that holds them."""
    count, one = elements(type_)
    bits_of_one = width(one)
    if bits_of_one >= WORD:
        return [as_number(function, one, value, "i64") for value in values] if bits_of_one == WORD else values
    held = container(f"i{min(count * bits_of_one, WORD)}")
    words: list[str] = []
    for index, value in enumerate(values):
        number, shift = divmod(index * bits_of_one, WORD)
        value = as_number(function, one, value, held)
        if shift:
            value = function.emit(f"shl {held} {value}, {shift}")
        if number == len(words):
            words.append(value)
        else:
            words[number] = function.emit(f"or {held} {words[number]}, {value}")
    return words


def split(function: Function, type_: Type, words: list[str]) -> list[str]:
    """The pieces of a vector or a scalar from the words that `joined` makes."""
    count, one = elements(type_)
    bits_of_one = width(one)
    if one == "ptr":
        return [function.emit(f"inttoptr i64 {word} to ptr") for word in words]
    if bits_of_one >= WORD:
        return words
    held, own = container(f"i{min(count * bits_of_one, WORD)}"), container(as_integer(one))
    found = []
    for index in range(count):
        number, shift = divmod(index * bits_of_one, WORD)
        value = words[number]
        if shift:
            value = function.emit(f"lshr {held} {value}, {shift}")
        if own != held:
            value = function.emit(f"trunc {held} {value} to {own}")
        if own != f"i{bits_of_one}":
            value = function.emit(f"and {own} {value}, {(1 << bits_of_one) - 1}")
        found.append(value)
    return found


def bitcast(function: Function, tokens: Tokens, target: str, _word: str) -> None:
    """`bitcast` from or to a vector."""
    given, values = function.argument(tokens)
    tokens.take("to")
    made = function.type(tokens)
    if elements(given)[0] * width(elements(given)[1]) != elements(made)[0] * width(elements(made)[1]):
        raise Refused(f"bitcast of {show_type(given)} to {show_type(made)}", "vector")
    if pieces(given) != pieces(made) or width(elements(given)[1]) != width(elements(made)[1]):
        values = split(function, made, joined(function, given, values))
    function.become(target, made, values)


def lower_vector_intrinsic(function: Function, name: str, call: Call) -> bool:
    """A call of an intrinsic on vectors; false if the name is another one."""
    if reduced := REDUCED.match(name):
        reduce(function, reduced[1], call)
        return True
    found = re.match(r"llvm\.x86\.(?:sse|sse2|sse41|avx|avx2)\.(.+)$", name)
    if not found or not call.arguments or elements(call.arguments[0].type)[0] == 1:
        return False
    word = found[1]
    if word.startswith(("pmovmskb", "movmsk.")):
        sign_bits(function, call)
    elif word in PACKED:
        pack(function, call, *PACKED[word])
    elif shifted := re.match(r"(psll|psrl|psra)i\.([wdq])(?:\.\d+)?$", word):
        shift_elements(function, call, shifted[1])
    elif word in WIDENED:
        on_wide_elements(function, call, *WIDENED[word])
    elif word == "pmadd.wd":
        sums_of_products(function, call)
    elif word == "psad.bw":
        sums_of_distances(function, call)
    else:
        raise Refused(f"the intrinsic @{name} has no form in the subset", "vector")
    return True


def reduce(function: Function, word: str, call: Call) -> None:
    """One number from all elements."""
    held, values = pieces(call.result)[0], call.arguments[0].values
    if container(call.result) != call.result:
        raise Refused(f"a reduction of {show_type(call.arguments[0].type)}", "vector")
    total = values[0]
    for value in values[1:]:
        if word[1:] in ("min", "max"):
            test = function.emit(f'icmp {word[0]}{"lt" if word[1:] == "min" else "gt"} {held} {total}, {value}')
            total = function.emit(f"select i1 {test}, {held} {total}, {held} {value}")
        else:
            total = function.emit(f"{word} {held} {total}, {value}")
    function.become(call.target, call.result, [total])


def sign_bits(function: Function, call: Call) -> None:
    """`movmsk` and `pmovmskb`: the highest bit of each element."""
    one, total = elements(call.arguments[0].type)[1], "0"
    held = container(as_integer(one))
    for index, value in enumerate(call.arguments[0].values):
        bit = function.emit(f"lshr {held} {value}, {width(one) - 1}")
        if held != "i32":
            bit = function.emit(f'{"zext" if width(one) < 32 else "trunc"} {held} {bit} to i32')
        if index:
            bit = function.emit(f"shl i32 {bit}, {index}")
            bit = function.emit(f"or i32 {total}, {bit}")
        total = bit
    function.become(call.target, "i32", [total])


def pack(function: Function, call: Call, narrow: int, signed: bool) -> None:
    """`packs` and `packus`: each element with a sign, in half of the width; the nearest number where it does not fit."""
    held, own = f"i{2 * narrow}", f"i{narrow}"
    least, most = (-(1 << narrow - 1), (1 << narrow - 1) - 1) if signed else (0, (1 << narrow) - 1)
    found = []
    for value in [*call.arguments[0].values, *call.arguments[1].values]:
        for test, limit in (("slt", least), ("sgt", most)):
            outside = function.emit(f"icmp {test} {held} {value}, {limit}")
            value = function.emit(f"select i1 {outside}, {held} {limit}, {held} {value}")
        found.append(function.emit(f"trunc {held} {value} to {own}"))
    function.become(call.target, call.result, found)


def shift_elements(function: Function, call: Call, word: str) -> None:
    """`psll`, `psrl` and `psra` by one amount: too large an amount gives zeros, or signs."""
    held, amount = container(elements(call.result)[1]), call.arguments[1].values[0]
    operation, most = {"psll": "shl", "psrl": "lshr", "psra": "ashr"}[word], width(elements(call.result)[1]) - 1
    fits = function.emit(f"icmp ule i32 {amount}, {most}")
    amount = function.emit(f"select i1 {fits}, i32 {amount}, i32 {most}")
    if held != "i32":
        amount = function.emit(f'{"zext" if most > 32 else "trunc"} i32 {amount} to {held}')
    found = [function.emit(f"{operation} {held} {value}, {amount}") for value in call.arguments[0].values]
    if word != "psra":
        found = [function.emit(f"select i1 {fits}, {held} {value}, {held} 0") for value in found]
    function.become(call.target, call.result, found)


def widened(function: Function, call: Call, number: int, signed: bool) -> list[str]:
    """The elements of an argument in 32 bits."""
    held = container(elements(call.arguments[number].type)[1])
    return [
        function.emit(f'{"sext" if signed else "zext"} {held} {value} to i32')
        for value in call.arguments[number].values
    ]


def on_wide_elements(function: Function, call: Call, operation: str, signed: bool, shift: int) -> None:
    """The average of two elements, rounded up, or the upper half of their product."""
    found = []
    for one, other in zip(widened(function, call, 0, signed), widened(function, call, 1, signed)):
        value = function.emit(f"{operation} i32 {one}, {other}")
        if operation == "add":
            value = function.emit(f"add i32 {value}, 1")
        value = function.emit(f"lshr i32 {value}, {shift}")
        found.append(function.emit(f"trunc i32 {value} to {container(elements(call.result)[1])}"))
    function.become(call.target, call.result, found)


def sums_of_products(function: Function, call: Call) -> None:
    """`pmadd`: the sum of the products of two neighbours."""
    products = [
        function.emit(f"mul i32 {one}, {other}")
        for one, other in zip(widened(function, call, 0, True), widened(function, call, 1, True))
    ]
    function.become(
        call.target,
        call.result,
        [function.emit(f"add i32 {one}, {other}") for one, other in zip(products[::2], products[1::2])],
    )


def sums_of_distances(function: Function, call: Call) -> None:
    """`psad`: the sum of the distances of eight neighbours."""
    sums: list[str] = []
    for index, (one, other) in enumerate(zip(widened(function, call, 0, False), widened(function, call, 1, False))):
        value = function.emit(f"sub i32 {one}, {other}")
        negative = function.emit(f"icmp slt i32 {value}, 0")
        opposite = function.emit(f"sub i32 0, {value}")
        value = function.emit(f"select i1 {negative}, i32 {opposite}, i32 {value}")
        if index % 8:
            sums[-1] = function.emit(f"add i32 {sums[-1]}, {value}")
        else:
            sums.append(value)
    function.become(call.target, call.result, [function.emit(f"zext i32 {value} to i64") for value in sums])


INSTRUCTIONS: dict[str, Instruction] = {"bitcast": bitcast}
