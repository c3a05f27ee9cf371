"""Types: a scalar is its word, an array ('array', count, element), a vector ('vector', count, element), a struct ('struct', fields) or
('packed', fields).

Sizes and alignments are those of LLVM on x86-64. What a register holds is kept in *pieces*, scalars of the subset: an
integer of another width in one of the next width, whose upper bits are zero, one above 64 bits in several of 64 bits,
a floating-point number in an integer that has its bits, an aggregate or a vector in the pieces of its fields."""
from __future__ import annotations

import re
from functools import lru_cache
from typing import Any

from .refusals import Refused
from .tokens import Tokens

# The items of a tuple depend on its first one, which mypy does not follow.
Type = str | tuple[Any, ...]
INTEGERS = {"i1": 1, "i8": 1, "i16": 2, "i32": 4, "i64": 8}
SCALARS = {**INTEGERS, "ptr": 8}
# The integers that have the bits of floating-point numbers.
FLOATS = {"half": "i16", "bfloat": "i16", "float": "i32", "double": "i64", "x86_fp80": "i80", "fp128": "i128"}
MOST_PIECES = 64
# Types of many elements; a vector has them bit by bit, and another alignment.
LISTS = ("array", "vector")
WIDEST = 64 * MOST_PIECES


def read_type(tokens: Tokens, named: dict[str, Type]) -> Type:
    """The type that stands next; `named` has the texts of the named types, which are written out in place."""
    text = tokens.take()
    if text in SCALARS or text in FLOATS or text == "void":
        return text
    if text == "[":
        count = int(tokens.take())
        tokens.take("x")
        element = read_type(tokens, named)
        tokens.take("]")
        return ("array", count, element)
    if text == "{":
        return ("struct", read_fields(tokens, named))
    if text == "<" and tokens.take_if("{"):
        packed = ("packed", read_fields(tokens, named))
        tokens.take(">")
        return packed
    if text.startswith("%") and text in named:
        written = named[text]
        if isinstance(written, str):
            named[text] = ("opaque",) if written == "opaque" else read_type(Tokens(written), named)
        return named[text]
    if re.fullmatch(r"i[1-9][0-9]*", text):
        if int(text[1:]) > WIDEST:
            raise Refused(f"the type {text} is not in the subset", "width")
        return text
    if text == "<":
        return read_vector(tokens, named)
    raise Refused(f"the type {text} is not in the subset")


def read_vector(tokens: Tokens, named: dict[str, Type]) -> Type:
    """A vector, after its opening bracket. The number of elements of some is known to the processor alone."""
    if tokens.kind() != "number":
        raise Refused(f"a vector of {tokens.peek()}", "vector")
    count = int(tokens.take())
    tokens.take("x")
    element_type = read_type(tokens, named)
    tokens.take(">")
    return ("vector", count, element_type)


def read_fields(tokens: Tokens, named: dict[str, Type]) -> tuple[Type, ...]:
    """The types of the fields of a struct, after its opening brace, which is closed after them."""
    fields = []
    while tokens.peek() != "}":
        fields.append(read_type(tokens, named))
        if not tokens.take_if(","):
            break
    tokens.take("}")
    return tuple(fields)


def is_aggregate(type_: Type) -> bool:
    """Whether the type is an array, a vector or a struct."""
    return isinstance(type_, tuple)


def bits(type_: Type) -> int:
    """The width of an integer type, or 0."""
    return int(type_[1:]) if isinstance(type_, str) and type_[0] == "i" else 0


def width(type_: Type) -> int:
    """The number of bits of a scalar."""
    return 64 if type_ == "ptr" else bits(as_integer(type_))


def as_integer(type_: Type) -> Type:
    """The integer type that has the bits of a floating-point type; any other type is itself."""
    return FLOATS.get(type_, type_) if isinstance(type_, str) else type_


def as_scalar(type_: Type) -> str:
    """The type itself, which must be that of a scalar."""
    if isinstance(type_, str):
        return type_
    raise Refused(f"{show_type(type_)} where a scalar stands")


def next_power(number: int) -> int:
    """The least power of two that is not below the number."""
    return 1 << max(number - 1, 0).bit_length()


def container(type_: Type) -> str:
    """The integer type of the subset that holds an integer of up to 64 bits; `ptr` holds itself."""
    if isinstance(type_, str) and type_ in SCALARS:
        return type_
    return f"i{max(8, next_power(bits(type_)))}"


@lru_cache(None)
def pieces(type_: Type) -> tuple[str, ...]:
    """The types of the scalars of the subset that hold a value in registers."""
    if type_ == "void":
        return ()
    if isinstance(type_, str):
        type_ = as_integer(type_)
        return ("i64",) * -(-bits(type_) // 64) if bits(type_) > 64 else (container(type_),)
    alignment(type_)
    if type_[0] in LISTS and type_[1] > MOST_PIECES:
        raise Refused(f"a value of type {show_type(type_)}: a register holds at most {MOST_PIECES} elements")
    fields = (type_[2],) * type_[1] if type_[0] in LISTS else type_[1]
    return tuple(piece for field in fields for piece in pieces(field))


@lru_cache(None)
def alignment(type_: Type) -> int:
    """The alignment of a type in memory."""
    if isinstance(type_, str):
        type_ = FLOATS.get(type_, type_)
        if type_ in SCALARS:
            return SCALARS[type_]
        if not bits(type_):
            raise Refused(f"the type {type_} has no size")
        return min(max(1, next_power(bits(type_)) // 8), 16)
    if type_[0] == "array":
        return alignment(type_[2])
    if type_[0] == "vector":
        return next_power(-(-type_[1] * width(type_[2]) // 8))
    if type_[0] == "opaque":
        raise Refused("an incomplete struct has no size")
    return 1 if type_[0] == "packed" else max([1] + [alignment(field) for field in type_[1]])


@lru_cache(None)
def size(type_: Type) -> int:
    """The distance between two neighbours in an array of a type."""
    if isinstance(type_, str):
        return 8 if type_ == "ptr" else round_up(-(-bits(as_integer(type_)) // 8), alignment(type_))
    if type_[0] == "array":
        return int(type_[1]) * size(type_[2])
    if type_[0] == "vector":
        return alignment(type_)
    whole = alignment(type_)
    return round_up(field_offsets(type_)[-1], whole)


@lru_cache(None)
def field_offsets(type_: Type) -> tuple[int, ...]:
    """The offsets of the fields of a struct, and the end of the last one."""
    offsets, end = [], 0
    for field in type_[1]:
        begin = end if type_[0] == "packed" else round_up(end, alignment(field))
        offsets.append(begin)
        end = begin + size(field)
    return (*offsets, end)


def element(type_: Type, index: int) -> tuple[int, Type]:
    """The offset and the type of an element of an array, a vector or a struct."""
    if type_[0] in LISTS:
        return index * size(type_[2]), type_[2]
    return field_offsets(type_)[index], type_[1][index]


def leaves(type_: Type, offset: int = 0) -> list[tuple[int, Type]]:
    """The offset and the type of each scalar and each vector of a type that registers hold, without floating-point types."""
    if isinstance(type_, str):
        return [(offset, as_integer(type_))]
    if type_[0] == "vector":
        return [(offset, type_)]
    pieces(type_)
    count = type_[1] if type_[0] == "array" else len(type_[1])
    return [leaf for index in range(count) for leaf in leaves_of_element(type_, index, offset)]


def leaves_of_element(type_: Type, index: int, offset: int) -> list[tuple[int, Type]]:
    """The leaves of one element of an aggregate that lies at the offset."""
    begin, inner = element(type_, index)
    return leaves(inner, offset + begin)


def round_up(number: int, multiple: int) -> int:
    """The least multiple that is not below the number."""
    return -(-number // multiple) * multiple


def show_type(type_: Type) -> str:
    """The text of a type."""
    if isinstance(type_, str):
        return type_
    if type_[0] == "array":
        return f"[{type_[1]} x {show_type(type_[2])}]"
    if type_[0] == "vector":
        return f"<{type_[1]} x {show_type(type_[2])}>"
    if type_[0] == "opaque":
        return "an incomplete struct"
    return "{ " + ", ".join(map(show_type, type_[1])) + " }" if type_[1] else "{}"
