"""Floating-point numbers. Registers and memory have them as their bits, in integers of the subset.

The runtime computes with them in integers, with the results of the processor (`tools/runtime/floats.c`). It has a function for each
instruction and each intrinsic, by its word; a module that has one of these needs the function."""
from __future__ import annotations

import re
from typing import TYPE_CHECKING

from .integers import cut, extended
from .refusals import Refused
from .tokens import FAST_MATH, Tokens
from .types import INTEGERS as OF_THE_SUBSET
from .types import Type, as_scalar, bits, container, pieces
from .writer import Instruction

if TYPE_CHECKING:
    from .calls import Call
    from .function import Function

NAMES = {"float": "f32", "double": "f64"}
IN_C = {"x86_fp80": "long double", "fp128": "__float128", "half": "_Float16", "bfloat": "__bf16"}
HIGHEST = {"float": (1 << 31), "double": (1 << 63)}
FLAGS = FAST_MATH | {"nneg"}
BINARY = "fadd fsub fmul fdiv frem".split()
CONVERSIONS = "fptosi fptoui sitofp uitofp fpext fptrunc".split()
INTRINSICS = """sqrt fma fmuladd minnum maxnum floor ceil trunc round roundeven rint nearbyint lround llround lrint llrint ldexp
    is.fpclass""".split()
# The sums of the bits of the runtime's orders: less 1, equal 2, greater 4, unordered 8.
ORDERS = {
    "oeq": 2,
    "ogt": 4,
    "oge": 6,
    "olt": 1,
    "ole": 3,
    "one": 5,
    "ord": 7,
    "ueq": 10,
    "ugt": 12,
    "uge": 14,
    "ult": 9,
    "ule": 11,
    "une": 13,
    "uno": 8,
    "true": 15,
    "false": 0,
}
USED = re.compile(rf'^ .*\b({"|".join([*BINARY, "fcmp", *CONVERSIONS])}) (.*)$', re.M)
CALLED = re.compile(rf'@llvm\.({"|".join(map(re.escape, INTRINSICS))})\.(?:[iv]\d+\.)?(?:v\d+)?f(32|64)\b')


def has_floats(text: str) -> bool:
    """Whether a module has floating-point numbers."""
    return re.search(r"\b(?:float|double)\b", text) is not None


def functions_needed(text: str) -> set[str]:
    """The functions of the runtime that compute what a module computes."""
    if not has_floats(text):
        return set()
    found = {f'hippo_f{width}_{word.replace(".", "_")}' for word, width in CALLED.findall(text)}
    for word, rest in USED.findall(text):
        for type_ in re.findall(r"\b(?:float|double)\b", rest):
            found |= {
                f"hippo_{NAMES[type_]}_{form}"
                for form in ([word, "fptosi32", "fptosi"] if word.startswith("fpto") else [word])
            }
    return found


def computed(function: Function, result: str, type_: Type, word: str, *given: str) -> str:
    """The instruction that calls the runtime's function for a word on numbers of a type."""
    type_ = as_scalar(type_)
    if type_ not in NAMES:
        raise Refused(f"{word} of {IN_C.get(type_, type_)}", "float")
    name = function.module.names.get(f'@hippo_{NAMES[type_]}_{word.replace(".", "_")}')
    if name is None:
        raise Refused(f"{word} of {IN_C.get(type_, type_)}", "float")
    return f'call {result} @{name}({", ".join(given)})'


def binary(function: Function, tokens: Tokens, target: str, word: str) -> None:
    """An operation on two numbers."""
    tokens.take_all(FLAGS)
    type_, first = function.argument(tokens)
    tokens.take(",")
    held, second = pieces(type_)[0], function.operand(tokens, type_)
    function.assign(target, computed(function, held, type_, word, f"{held} {first[0]}", f"{held} {second}"))


def negate(function: Function, tokens: Tokens, target: str, word: str) -> None:
    """`fneg`: the sign changes, also that of what is no number."""
    tokens.take_all(FLAGS)
    type_, value = function.argument(tokens)
    function.assign(target, f"xor {pieces(type_)[0]} {value[0]}, {sign_of(type_, word)}")


def sign_of(type_: Type, word: str) -> int:
    """The constant whose only bit is the sign of a type."""
    type_ = as_scalar(type_)
    if type_ not in HIGHEST:
        raise Refused(f"{word} of {IN_C.get(type_, type_)}", "float")
    return -HIGHEST[type_]


def compare(function: Function, tokens: Tokens, target: str, word: str) -> None:
    """`fcmp`."""
    tokens.take_all(FLAGS)
    order = ORDERS[tokens.take()]
    type_, first = function.argument(tokens)
    tokens.take(",")
    held, second = pieces(type_)[0], function.operand(tokens, type_)
    function.assign(
        target, computed(function, "i1", type_, word, f"{held} {first[0]}", f"{held} {second}", f"i32 {order}")
    )


def to_integer(function: Function, tokens: Tokens, target: str, word: str) -> None:
    """`fptosi` and `fptoui`, by the instruction that clang takes for the width, so what does not fit gives the same bits."""
    type_, value = function.argument(tokens)
    tokens.take("to")
    result = function.integer(tokens)
    width = bits(result)
    if width > 64:
        raise Refused(f"{word} to {result}", "float")
    given = f"{pieces(type_)[0]} {value[0]}"
    if width <= 16 or width <= 32 and word == "fptosi":
        whole, held = computed(function, "i32", type_, "fptosi32", given), "i32"
    else:
        whole, held = computed(function, "i64", type_, word if width > 32 else "fptosi", given), "i64"
    if result == held:
        function.assign(target, whole)
        return
    number = function.emit(whole)
    if container(result) != held:
        whole = f"trunc {held} {number} to {container(result)}"
        number = number if result in OF_THE_SUBSET else function.emit(whole)
    function.assign(target, whole if result in OF_THE_SUBSET else cut(result, number))


def from_integer(function: Function, tokens: Tokens, target: str, word: str) -> None:
    """`sitofp` and `uitofp`."""
    tokens.take_all(FLAGS)
    source = function.integer(tokens)
    if bits(source) > 64:
        raise Refused(f"{word} of {source}", "float")
    number = function.operand(tokens, source)
    tokens.take("to")
    type_, held = as_scalar(function.type(tokens)), container(source)
    if type_ not in NAMES:
        raise Refused(f"{word} to {IN_C.get(type_, type_)}", "float")
    if word == "sitofp":
        number = extended(function, source, number)
    if held != "i64":
        number = function.emit(f'{"sext" if word == "sitofp" else "zext"} {held} {number} to i64')
    function.assign(target, computed(function, pieces(type_)[0], type_, word, f"i64 {number}"))


def resize(function: Function, tokens: Tokens, target: str, word: str) -> None:
    """`fpext` and `fptrunc`."""
    tokens.take_all(FLAGS)
    source, value = function.argument(tokens)
    tokens.take("to")
    type_ = as_scalar(function.type(tokens))
    if type_ not in NAMES:
        raise Refused(f"{word} to {IN_C.get(type_, type_)}", "float")
    function.assign(target, computed(function, pieces(type_)[0], source, word, f"{pieces(source)[0]} {value[0]}"))


def lower_float_intrinsic(function: Function, name: str, call: Call) -> bool:
    """A call of an intrinsic on floating-point numbers; false if the name is another one."""
    if not (named := re.match(r"llvm\.([\w.]+?)(?:\.i\d+)?\.(?:f32|f64|f80|f128|f16|bf16)(?:\.i\d+)?$", name)):
        return False
    word, type_ = named[1], call.arguments[0].type
    held, values = pieces(type_)[0], [argument.values[0] for argument in call.arguments]
    if word == "fabs":
        function.assign(call.target, f"and {held} {values[0]}, {-sign_of(type_, word) - 1}")
    elif word == "copysign":
        size = function.emit(f"and {held} {values[0]}, {-sign_of(type_, word) - 1}")
        sign = function.emit(f"and {held} {values[1]}, {sign_of(type_, word)}")
        function.assign(call.target, f"or {held} {size}, {sign}")
    elif word in INTRINSICS:
        given = [f"{pieces(argument.type)[0]} {value}" for argument, value in zip(call.arguments, values)]
        if word == "is.fpclass":
            given[1] = f"i32 {values[1]}"
        function.assign(call.target, computed(function, pieces(call.result)[0], type_, word, *given))
    else:
        raise Refused(f"the intrinsic @{name} has no form in the subset", "float")
    return True


INSTRUCTIONS: dict[str, Instruction] = {
    **dict.fromkeys(BINARY, binary),
    "fneg": negate,
    "fcmp": compare,
    "fptosi": to_integer,
    "fptoui": to_integer,
    "sitofp": from_integer,
    "uitofp": from_integer,
    "fpext": resize,
    "fptrunc": resize,
}
