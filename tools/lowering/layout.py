"""Layout in memory: the type of the subset under which each byte of a type lies where LLVM has it.

Most types are such themselves. Others are not, since the subset aligns each field naturally: packed structs whose
fields lie elsewhere, and structs around integers of 128 bits or vectors. Of these only sizes and offsets in bytes are used."""
from __future__ import annotations

from functools import lru_cache

from .types import INTEGERS, LISTS, Type, alignment, as_integer, bits, container, field_offsets, round_up, size


@lru_cache(None)
def natural(type_: Type) -> Type | None:
    """The type in the subset with the same fields at the same offsets, or nothing if there is none."""
    if isinstance(type_, str):
        type_ = as_integer(type_)
        return ("array", size(type_) // 8, "i64") if bits(type_) > 64 else container(type_)
    if type_[0] in LISTS:
        inner = natural(type_[2])
        same = inner and ("array", type_[1], inner)
        return same if same and (type_[0] == "array" or size(same) == size(type_)) else None
    if type_[0] == "opaque":
        return None
    fields = tuple(natural(field) for field in type_[1])
    if None in fields:
        return None
    same = ("struct", fields)
    return same if field_offsets(same) == field_offsets(type_) and size(same) == size(type_) else None


def words(count: int, step: int) -> Type:
    """The type of a number of bytes, at a multiple of `step` bytes."""
    return ("array", -(-count // step), f"i{8 * step}")


def room(type_: Type, least: int = 1) -> Type:
    """A type in the subset with the size of a type, and with its alignment or a greater one, `least`, up to 8."""
    same, wanted = natural(type_), min(max(alignment(type_), least), 8)
    if same is not None and alignment(same) >= wanted:
        return same
    return words(size(type_), wanted)


def parts(type_: str) -> list[tuple[int, str]]:
    """Offsets and types of the accesses of the subset that cover the bytes of an integer of any width."""
    if type_ == "ptr" or type_ in INTEGERS:
        return [(0, type_)]
    found, offset, end = [], 0, -(-bits(type_) // 8)
    while offset < end:
        step = 8
        while offset + step > end:
            step //= 2
        found.append((offset, f"i{8 * step}"))
        offset += step
    return found


def known_alignment(least: int, offset: int) -> int:
    """The alignment at an offset from an address with an alignment."""
    return min(least, offset & -offset) if offset else least


def flat(fields: list[tuple[int, Type, str]], total: int) -> tuple[Type, list[str]]:
    """A struct in the subset, and its fields as constants: the given constants at ascending offsets, and zeros between them."""
    types: list[Type] = []
    items: list[str] = []
    end = 0
    for offset, type_, text in [*fields, (total, None, "")]:
        aligned = round_up(end, alignment(type_)) if type_ is not None else end
        if aligned != offset:
            types.append(words(offset - end, 1))
            items.append("zeroinitializer")
        if type_ is not None:
            types.append(type_)
            items.append(text)
            end = offset + size(type_)
    return ("struct", tuple(types)), items
