"""Memory: stack blocks, loads, stores and addresses of elements."""
from __future__ import annotations

from typing import TYPE_CHECKING

from .constants import FLAGS
from .layout import known_alignment, natural, parts, words
from .refusals import Refused
from .stack import LARGEST_ALIGNMENT, block, shown
from .tokens import Tokens
from .types import (
    SCALARS,
    Type,
    alignment,
    as_integer,
    bits,
    container,
    element,
    leaves,
    pieces,
    show_type,
    size,
    width,
)
from .vectors import joined, split
from .writer import Instruction

if TYPE_CHECKING:
    from .function import Function


def alloca(function: Function, tokens: Tokens, target: str, _word: str) -> None:
    """`alloca`: a block of a type's size, at the alignment that clang states."""
    type_, least, count = function.type(tokens), 0, None
    while tokens.take_if(","):
        if tokens.take_if("align"):
            least = int(tokens.take())
            continue
        count_type = function.integer(tokens)
        if tokens.kind() == "number":
            type_ = ("array", int(tokens.take()), type_)
        else:
            count = function.operand(tokens, count_type), count_type
    function.blocks.add(function.register(target))
    if count is not None:
        variable_array(function, target, (type_, least), *count)
        return
    for line in block(function, function.register(target), type_, least):
        function.put(line)


def variable_array(function: Function, target: str, element_: tuple[Type, int], count: str, count_type: str) -> None:
    """An array of variable length: a block of the bound; a longer array traps.

    An array in C lives as long as its scope, so one block in each call of the function serves all arrays of one place. A block of
    the C function `alloca` lives as long as the call, so each has its own."""
    bound = function.module.options.array_bound
    if bound is None:
        raise Refused("an array whose length is not constant", "array")
    function.module.note("array", BYTES=str(bound))
    type_, least = element_
    lines = block(function, function.register(target), words(bound, 8), least)
    if target.startswith("%vla"):
        function.entry += lines
    else:
        for line in lines:
            function.put(line)
    held = container(count_type)
    fits = function.emit(f"icmp ule {held} {count}, {min(bound // max(size(type_), 1), (1 << bits(held) - 1) - 1)}")
    function.guard(fits, "array")


def load(function: Function, tokens: Tokens, target: str, _word: str) -> None:
    """`load`, part by part."""
    note_volatile(function, tokens)
    type_ = as_integer(function.type(tokens))
    tokens.take(",")
    address = function.address(tokens)
    least = access_alignment(function, tokens, address)
    if type_ in SCALARS:
        function.assign(target, f"load {type_}, ptr {address}{shown(least)}")
        return
    values = []
    for offset, leaf in leaves(type_):
        values += load_leaf(
            function, leaf, element_at(function, address, offset), known_alignment(least or alignment(type_), offset)
        )
    function.become(target, type_, values)


def as_words(vector: Type) -> str:
    """The integer with the bits of a vector."""
    return f"i{vector[1] * width(vector[2])}"


def load_leaf(function: Function, leaf: Type, address: str, least: int) -> list[str]:
    """Loads one scalar, or a vector in words; the values of its pieces."""
    if not isinstance(leaf, str):
        whole = as_words(leaf)
        return split(function, leaf, load_leaf(function, whole, address, least))
    piece, count = pieces(leaf)[0], len(pieces(leaf))
    sums = [""] * count
    for offset, part in parts(leaf):
        at = element_at(function, address, offset)
        value = function.emit(f"load {part}, ptr {at}{lesser(known_alignment(least, offset), part)}")
        if part != piece:
            value = function.emit(f"zext {part} {value} to {piece}")
        number, place = divmod(offset, size(piece)) if count > 1 else (0, offset)
        if place:
            value = function.emit(f"shl {piece} {value}, {8 * place}")
        sums[number] = function.emit(f"or {piece} {sums[number]}, {value}") if sums[number] else value
    if bits(leaf) % 8 and leaf not in SCALARS:
        rest = bits(leaf) % bits(piece)
        sums[-1] = function.emit(f"and {piece} {sums[-1]}, {(1 << rest) - 1}")
    return sums


def store(function: Function, tokens: Tokens, _target: str, _word: str) -> None:
    """`store`, part by part. A flush follows a non-temporal store, which needs only a fence to be durable."""
    note_volatile(function, tokens)
    passes_by = "nontemporal" in function.metadata
    if passes_by and not function.module.options.non_temporal:
        raise Refused("a non-temporal access", "nontemporal")
    type_, values = function.argument(tokens)
    type_ = as_integer(type_)
    tokens.take(",")
    address = function.address(tokens)
    least = access_alignment(function, tokens, address)
    if type_ in SCALARS:
        function.put(f"store {type_} {values[0]}, ptr {address}{shown(least)}")
    else:
        for offset, leaf in leaves(type_):
            count = len(pieces(leaf))
            store_leaf(
                function,
                values[:count],
                leaf,
                element_at(function, address, offset),
                known_alignment(least or alignment(type_), offset),
            )
            values = values[count:]
    if passes_by:
        flush(function, address, size(type_), least or alignment(type_))


def flush(function: Function, address: str, count: int, least: int) -> None:
    """The flush of what a non-temporal store wrote."""
    function.module.note("non_temporal")
    if least >= count:
        function.module.extern("llvm.x86.clwb")
        function.put(f"call void @llvm.x86.clwb(ptr {address})")
    else:
        function.module.extern("pmem_flush")
        function.put(f"call void @pmem_flush(ptr {address}, i64 {count})")


def store_leaf(function: Function, values: list[str], leaf: Type, address: str, least: int) -> None:
    """Stores one scalar, or a vector in words."""
    if not isinstance(leaf, str):
        values, leaf = joined(function, leaf, values), as_words(leaf)
    piece = pieces(leaf)[0]
    for offset, part in parts(leaf):
        number, place = divmod(offset, size(piece)) if len(values) > 1 else (0, offset)
        value = values[number]
        if place:
            value = function.emit(f"lshr {piece} {value}, {8 * place}")
        if part != piece:
            value = function.emit(f"trunc {piece} {value} to {part}")
        at = element_at(function, address, offset)
        function.put(f"store {part} {value}, ptr {at}{lesser(known_alignment(least, offset), part)}")


def element_at(function: Function, address: str, offset: int) -> str:
    """The address at an offset in bytes from another one."""
    return function.emit(f"getelementptr i8, ptr {address}, i64 {offset}") if offset else address


def note_volatile(function: Function, tokens: Tokens) -> None:
    """Leaves `volatile` out; refuses an atomic access."""
    if tokens.peek() == "atomic":
        raise Refused("an atomic access", "atomic")
    if tokens.take_if("volatile"):
        function.module.note("volatile")


def access_alignment(function: Function, tokens: Tokens, address: str) -> int:
    """The number in `, align N`, or 0; 1 if C's alignments are not trusted, except for named variables."""
    least = 0
    if tokens.take_if(","):
        tokens.take("align")
        least = min(int(tokens.take()), LARGEST_ALIGNMENT)
    if function.module.options.unaligned and not address.startswith("@") and address not in function.blocks:
        function.module.note("unaligned")
        return 1
    return least


def lesser(least: int, part: str) -> str:
    """`, align N` if that is below the alignment of the type."""
    return shown(least) if least < alignment(part) else ""


def element_address(function: Function, tokens: Tokens, target: str, _word: str) -> None:
    """`getelementptr`; by bytes if the subset has no type with the same layout."""
    tokens.take_all(FLAGS)
    type_ = function.type(tokens)
    tokens.take(",")
    base = function.address(tokens)
    indices = []
    while tokens.take_if(","):
        index = function.integer(tokens)
        indices.append((index, function.operand(tokens, index)))
    same = natural(type_)
    if same is not None and all(index in SCALARS for index, _ in indices):
        inside = "".join(f", {index} {value}" for index, value in indices)
        function.assign(target, f"getelementptr {show_type(same)}, ptr {base}{inside}")
        return
    offset = 0
    for number, (index, value) in enumerate(indices):
        if value.startswith("%"):
            stepped = type_ if number == 0 else type_[2]
            base = variable_step(function, base, index, value, size(stepped))
            type_ = type_ if number == 0 else stepped
        elif number == 0:
            offset += int(value) * size(type_)
        else:
            begin, type_ = element(type_, int(value))
            offset += begin
    function.assign(target, f"getelementptr i8, ptr {base}, i64 {offset}")


def variable_step(function: Function, base: str, index: str, value: str, step: int) -> str:
    """The address that an index steps to, over elements of a size in bytes."""
    held = container(index)
    if bits(held) < 64:
        value = function.emit(f"sext {held} {value} to i64")
    scaled = function.emit(f"mul i64 {value}, {step}")
    return function.emit(f"getelementptr i8, ptr {base}, i64 {scaled}")


def refuse_atomic(_function: Function, _tokens: Tokens, _target: str, _word: str) -> None:
    """Refuses `cmpxchg` and `atomicrmw`; with `--single-thread` a pass of LLVM has lowered them before."""
    raise Refused("an atomic access", "atomic")


def fence(_function: Function, _tokens: Tokens, _target: str, _word: str) -> None:
    """Refuses a fence between threads."""
    raise Refused("a fence between threads", "fence")


INSTRUCTIONS: dict[str, Instruction] = {
    "alloca": alloca,
    "load": load,
    "store": store,
    "getelementptr": element_address,
    "cmpxchg": refuse_atomic,
    "atomicrmw": refuse_atomic,
    "fence": fence,
}
