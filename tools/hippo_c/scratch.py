"""Globals and fields that a program names volatile by `PERSISTENT_SCRATCH`, as clang's debug information has them."""
from __future__ import annotations

import os
import re
from collections.abc import Iterator
from typing import NamedTuple

from lowering.names import unescaped

from .names import CLASSES, Names, Types
from .places import Place
from .trouble import Trouble

# The tag that hippo.h gives a declaration, before its reason.
TAG = re.compile(r'!"btf_decl_tag", !"hippo:volatile:(.*)"')


class Scratch(NamedTuple):
    """A declaration with `PERSISTENT_SCRATCH`: its place, its name and its reason."""

    place: Place
    name: str
    reason: str


class Scratches:
    """The declarations of a program."""

    def __init__(self, names: Names) -> None:
        self.names = names
        self.by_node: dict[tuple[int, str], Scratch] = {}
        for number, types in enumerate(names.types()):
            for node, fields in types.nodes.items():
                if "annotations: " in fields and (found := scratch_of(types, node)):
                    self.by_node[(number, node)] = found
        self.units = {id(types): number for number, types in enumerate(names.types())}

    @property
    def all(self) -> set[Scratch]:
        """Each declaration once."""
        return set(self.by_node.values())

    def of(self, address: int, size: int) -> Scratch | None:
        """The declaration whose object has all bytes of a store."""
        item = self.names.program.object_at(address)
        if item is None or not self.by_node:
            return None
        known, offset = item
        types, number = self.names.type_of(known.name, known.size)
        if types is None:
            return None
        unit = self.units[id(types)]
        plain = re.sub(r"\.\d+$", "", known.name)
        definition = types.definitions.get(known.name, types.definitions.get(plain, ""))
        if offset + size <= known.size and (unit, definition) in self.by_node:
            return self.by_node[(unit, definition)]
        return self.within(unit, types, number, offset * 8, size * 8)

    def within(self, unit: int, types: Types, number: str | None, offset: int, size: int) -> Scratch | None:
        """The first of the declarations of the fields that have these bits of a type; nothing if other fields have any of them."""
        number = types.plain(number)
        parts: list[tuple[str | None, str | None, int, int]] = []
        if types.tag(number) == "DW_TAG_array_type":
            element = types.link(number, "baseType")
            bits = types.bytes(element) * 8
            count = (offset % bits + size - 1) // bits + 1 if bits else 0
            parts += [(None, element, index * bits, bits) for index in range(count)]
            offset = offset % bits if bits else 0
        elif number is not None and types.tag(number) in CLASSES:
            parts += fields_at(types, number, offset, size)
        else:
            return None
        found = []
        for field, base, start, bits in parts:
            first, end = max(start, offset), min(start + bits, offset + size)
            known = self.by_node.get((unit, field)) if field else None
            found.append(known or self.within(unit, types, base, first - start, end - first))
        return found[0] if found and all(found) else None


def fields_at(types: Types, number: str, offset: int, size: int) -> Iterator[tuple[str | None, str | None, int, int]]:
    """The fields of a type that have any of these bits: the node, the type, and the first bit and the number of bits of each."""
    for member in types.items(number):
        if types.tag(member) not in ("DW_TAG_member", "DW_TAG_inheritance"):
            continue
        if "DIFlagStaticMember" in types.nodes[member]:
            continue
        base = types.link(member, "baseType")
        start = types.value(member, "offset")
        bits = types.bytes(base) * 8 if types.tag(member) == "DW_TAG_inheritance" else types.value(member, "size")
        if start < offset + size and offset < start + bits:
            yield member, base, start, bits


def scratch_of(types: Types, node: str) -> Scratch | None:
    """The declaration of a node, if it has the tag; one without a reason is refused."""
    for item in re.findall(r"!(\d+)", types.node(types.link(node, "annotations"))):
        if found := TAG.fullmatch(types.node(item)):
            fields = types.nodes[node]
            name = re.search(r'\bname: "([^"]*)"', fields)
            file = types.node(types.link(node, "file"))
            names = re.search(r'filename: "([^"]*)", directory: "([^"]*)"', file)
            path = os.path.join(unescaped(names[2]), unescaped(names[1])) if names else "?"
            place = Place(shortest(path), types.value(node, "line"), 0, "")
            reason = " ".join(unescaped(found[1]).split())
            if not reason:
                raise Trouble(f'{place.short}: PERSISTENT_SCRATCH has no reason: PERSISTENT_SCRATCH("REASON")')
            return Scratch(place, name[1] if name else "?", reason)
    return None


def shortest(path: str) -> str:
    """A path from the current folder, if the file stands in it."""
    relative = os.path.relpath(path)
    return path if relative.startswith("..") else relative
