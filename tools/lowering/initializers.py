"""Initial values of globals, with their types in the subset.

A number that is an address (`ptrtoint`) becomes a pointer, which has the same bytes. So the type of a global may have
`ptr` where C has a number, and the same bytes at the same offsets."""
from __future__ import annotations

import re
from typing import TYPE_CHECKING, NamedTuple

from .constants import byte_list, bytes_of, limbs, note_undefined, read_number, read_scalar, refuse_expression, zero_of
from .layout import flat, natural
from .refusals import Refused
from .tokens import Tokens
from .types import (
    LISTS,
    Type,
    alignment,
    as_integer,
    bits,
    container,
    element,
    read_type,
    show_type,
    size,
)

if TYPE_CHECKING:
    from .module import Module


# The address of a function or a label, which is a number.
OF_CODE = re.compile(r"getelementptr \(i8, ptr null, i64 (\d+)\)$")


class Value(NamedTuple):
    """A constant: a scalar's text, or the values of an aggregate; zeros if it has neither."""

    type: Type
    text: str = ""
    items: list[Value] | None = None


def read_initial(tokens: Tokens, type_: Type, module: Module) -> tuple[Type, str]:
    """The type in the subset and the text of the initial value that stands next."""
    value = read_value(tokens, type_, module)
    shown = shaped(value)
    if shown is None:
        types, items = flat(merged(scalars_of(value, 0)), size(type_))
        fields = ", ".join(f"{show_type(field)} {text}" for field, text in zip(types[1], items))
        shown = types, f"{{ {fields} }}"
    return shown


def read_value(tokens: Tokens, type_: Type, module: Module) -> Value:
    """The initial value that stands next."""
    if tokens.peek() in ("undef", "poison", "zeroinitializer"):
        note_undefined(tokens.take(), module)
        return Value(type_)
    if tokens.kind() == "bytes":
        return Value(type_, tokens.take())
    if isinstance(type_, str):
        return read_scalar_value(tokens, type_, module)
    if tokens.take_if("splat"):
        tokens.take("(")
        items = [read_value(tokens, read_type(tokens, module.named_types), module)] * int(type_[1])
        tokens.take(")")
        return Value(type_, "", items)
    opening = tokens.take()
    items = []
    if opening == "<" and type_[0] != "vector":
        opening = tokens.take()
    if opening not in ("{", "[", "<"):
        raise Refused(f"the constant {opening!r} is not in the subset here", "constant")
    while tokens.peek() not in ("}", "]", ">"):
        items.append(read_value(tokens, read_type(tokens, module.named_types), module))
        tokens.take_if(",")
    tokens.take()
    tokens.take_if(">")
    return Value(type_, "", items)


def read_scalar_value(tokens: Tokens, type_: str, module: Module) -> Value:
    """A scalar's initial value."""
    if bits(as_integer(type_)) > 64:
        found = [Value("i64", text) for text in limbs(read_number(tokens, type_), bits(as_integer(type_)))]
        found += [Value("i64")] * (size(type_) // 8 - len(found))
        return Value(("array", len(found), "i64"), "", found)
    if tokens.kind() == "word" and tokens.peek() not in ("true", "false", "null", "getelementptr", "blockaddress"):
        base, offset = read_sum(tokens, module)
        if base is None:
            base = "null" if type_ == "ptr" else ""
        if base == "":
            return Value(container(type_), str(offset))
        if size(type_) < 8:
            raise Refused("an address is cut to fewer than 64 bits", "constant")
        return Value("ptr", f"getelementptr (i8, ptr {base}, i64 {offset})" if offset else base)
    return Value(container(as_integer(type_)), read_scalar(tokens, type_, module, refuse_expression))


def read_sum(tokens: Tokens, module: Module) -> tuple[str | None, int]:
    """A constant expression over at most one address: that address, and the number that is added to it."""
    if tokens.kind() == "number":
        return None, int(tokens.take())
    if tokens.peek() not in ("ptrtoint", "inttoptr", "add", "sub", "zext", "trunc"):
        text = read_scalar(tokens, "ptr", module, refuse_expression)
        if number := OF_CODE.match(text):
            return None, int(number[1])
        return None if text == "null" else text, 0
    word = tokens.take()
    tokens.take_all({"nuw", "nsw"})
    tokens.take("(")
    read_type(tokens, module.named_types)
    base, offset = read_sum(tokens, module)
    if word in ("add", "sub"):
        tokens.take(",")
        read_type(tokens, module.named_types)
        other, more = read_sum(tokens, module)
        if other is not None and (word == "sub" or base is not None):
            raise Refused("a sum of two addresses, or a difference", "constant")
        base, offset = base or other, offset + (more if word == "add" else -more)
    else:
        tokens.take("to")
        target = read_type(tokens, module.named_types)
        if base is not None and size(target) < 8:
            raise Refused(f"{word} of an address", "constant")
    tokens.take(")")
    return base, (offset + (1 << 63)) % (1 << 64) - (1 << 63)


def shaped(value: Value) -> tuple[Type, str] | None:
    """Type and text of a value with the shape of its type, or nothing if the subset has no such type."""
    if value.items is None:
        if value.text.startswith('c"'):
            return value.type, byte_list(value.text)
        same = natural(value.type)
        return None if same is None else (same, value.text or zero_of(same))
    items = [item for item in map(shaped, value.items) if item is not None]
    same = natural(value.type)
    if len(items) < len(value.items) or same is None:
        return None
    inside = ", ".join(f"{show_type(type_)} {text}" for type_, text in items)
    types = tuple(type_ for type_, _ in items)
    if value.type[0] in LISTS and len(set(types)) <= 1:
        return ("array", len(items), types[0] if types else natural(value.type[2])), f"[{inside}]"
    return ("struct", types), f"{{ {inside} }}" if items else "{}"


def scalars_of(value: Value, offset: int) -> list[tuple[int, Type, str]]:
    """Offsets, types and texts of the parts of a value that are not zero."""
    if value.items is not None:
        found = []
        for index, item in enumerate(value.items):
            found += scalars_of(item, offset + element(value.type, index)[0])
        return found
    if value.text.startswith('c"'):
        return [(offset + place, "i8", str(byte)) for place, byte in enumerate(bytes_of(value.text))]
    if value.text in ("", "0", "null", "false"):
        return []
    if offset % alignment(value.type) == 0:
        return [(offset, value.type, value.text)]
    if value.type == "ptr":
        raise Refused("an address in a field that is not at a multiple of 8 bytes", "constant")
    number = int(value.text) & (1 << bits(value.type)) - 1
    return [(offset + place, "i8", str(number >> 8 * place & 255)) for place in range(size(value.type))]


def merged(parts: list[tuple[int, Type, str]]) -> list[tuple[int, Type, str]]:
    """The parts, with bytes that follow one another as one array."""
    found: list[tuple[int, Type, list[str]]] = []
    for offset, type_, text in parts:
        if type_ == "i8" and found and found[-1][1] == "i8" and found[-1][0] + len(found[-1][2]) == offset:
            found[-1][2].append(text)
        else:
            found.append((offset, type_, [text]))
    return [
        (offset, ("array", len(texts), "i8"), "[" + ", ".join(f"i8 {text}" for text in texts) + "]")
        if type_ == "i8"
        else (offset, type_, texts[0])
        for offset, type_, texts in found
    ]
