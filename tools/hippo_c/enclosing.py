"""The objects around an address: a global, its fields and elements, by clang's debug information."""
from __future__ import annotations

import re
from collections.abc import Iterator
from typing import NamedTuple

from .names import CLASSES, Names, Types, shown


class Object(NamedTuple):
    """An object with parts: its name, its address and its size."""

    name: str
    address: int
    size: int

    @property
    def end(self) -> int:
        """The address after its last byte."""
        return self.address + self.size


def around(names: Names, address: int) -> Object | None:
    """The smallest struct or array that has an address, or the global if it is neither; nothing if no object is known there."""
    found = names.program.object_at(address)
    if not found:
        return None
    item, offset = found
    name = shown(re.sub(r"\.\d+$", "", item.name))
    types, number = names.type_of(item.name, item.size)
    last = Object(name, item.address, item.size)
    if types is not None and number is not None:
        for path, start, size in levels(types, number, offset):
            last = Object(name + path, item.address + start, size)
    return last


def levels(
    types: Types, number: str | None, offset: int, start: int = 0, path: str = ""
) -> Iterator[tuple[str, int, int]]:
    """The structs and arrays around an offset, from the outermost on: the path, the offset and the size of each."""
    number = types.plain(number)
    tag = types.tag(number)
    if number is None:
        return
    if tag in CLASSES:
        yield path, start, types.bytes(number)
        for member in types.items(number):
            if types.tag(member) != "DW_TAG_member" or "DIFlagStaticMember" in types.nodes[member]:
                continue
            at, size = types.value(member, "offset") // 8, types.value(member, "size") // 8
            if at <= offset < at + size:
                name = re.search(r'\bname: "([^"]*)"', types.nodes[member])
                inner = path + (f".{name[1]}" if name else "")
                yield from levels(types, types.link(member, "baseType"), offset - at, start + at, inner)
                return
    elif tag == "DW_TAG_array_type":
        element = types.link(number, "baseType")
        size = types.bytes(element)
        counts = [max(types.value(item, "count"), 1) for item in types.items(number)]
        while counts and size:
            whole = size
            for count in counts:
                whole *= count
            yield path, start, whole
            row = whole // counts.pop(0)
            path, start, offset = f"{path}[{offset // row}]", start + offset // row * row, offset % row
        if size:
            yield from levels(types, element, offset, start, path)
