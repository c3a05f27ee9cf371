"""Objects inside arenas: of which type a store of C is, by the debug information of clang's text without optimisation.

An arena is an array of bytes; the type of what lies in it is that of the pointer through which a program stores. Here the address of a
store is followed back to that pointer. Indices that only the run knows leave several places for the object; the place of the store, the
bounds of the arena and the alignment of the type may leave one of them."""
from __future__ import annotations

import itertools
import os
import re
from functools import cached_property
from typing import TYPE_CHECKING, NamedTuple

from lowering.names import demangled, shortened
from lowering.refusals import Refused
from lowering.tokens import Tokens
from lowering.types import Type, field_offsets, read_type, size

if TYPE_CHECKING:
    from .names import Types
    from .places import Place
    from .program import Global

POINTERS = ("DW_TAG_pointer_type", "DW_TAG_reference_type", "DW_TAG_rvalue_reference_type")
CLASSES = ("DW_TAG_structure_type", "DW_TAG_class_type", "DW_TAG_union_type")
NAMED_TYPE = re.compile(r'^(%(?:"[^"]*"|[-\w$.]+)) = type (.*)$', re.M | re.ASCII)
ASSIGNED = re.compile(r"^  (%\S+) = (\w+) (.*)$", re.M)
DECLARED = re.compile(r"#dbg_declare\(ptr (%\S+), !(\d+), !DIExpression\(\),")
STORE = re.compile(r"^  store [^\n]*, ptr (%[^\s,]+), align \d+, !dbg !(\d+)$", re.M)
LOCATION = re.compile(r"^!(\d+) = (?:distinct )?!DILocation\(line: (\d+), column: (\d+), scope", re.M)
NAME = re.compile(r'\bname: "([^"]*)"')
FLAGS = ("inbounds", "nuw", "nusw")
# Of how many instructions an address may be the result, and how many places of an object are compared.
MOST_INSTRUCTIONS = 16
MOST_PLACES = 4096


class Address(NamedTuple):
    """A place in an object of a type: its offset, and for each index that only the run knows the distance of elements and their number.
    `inner` is the type of the innermost such element, and the offset in it."""

    type: str
    offset: int = 0
    steps: tuple[tuple[int, int], ...] = ()
    inner: tuple[str, int] | None = None

    def moved(self, distance: int) -> Address:
        """The place at a distance."""
        inner = (self.inner[0], self.inner[1] + distance) if self.inner else None
        return self._replace(offset=self.offset + distance, inner=inner)


class Body:
    """A function of clang's text: what each register is, and the variable that each block of the stack is."""

    def __init__(self, text: str) -> None:
        self.assigned = {register: (word, rest) for register, word, rest in ASSIGNED.findall(text)}
        self.declared = dict(DECLARED.findall(text))


class StoredTypes:
    """The types of the stores of one file."""

    def __init__(self, text: str, types: Types) -> None:
        self.text, self.types = text, types
        self.named: dict[str, Type] = dict(NAMED_TYPE.findall(text))
        self.found: dict[Place, Address | None] = {}

    def of(self, place: Place) -> Address | None:
        """The address of the stores at a place, if all of them have the same."""
        if place not in self.found:
            self.found[place] = self.looked_up(place)
        return self.found[place]

    def looked_up(self, place: Place) -> Address | None:
        """The same, from the text."""
        found = set()
        for number in self.locations.get((place.line, place.column), []):
            if number in self.stores and self.file_of(number) == os.path.basename(place.file):
                found |= {self.followed(register, self.body(start)) for register, start in self.stores[number]}
        return found.pop() if len(found) == 1 else None

    @cached_property
    def locations(self) -> dict[tuple[int, int], list[str]]:
        """The numbers of the metadata of places, by their lines and columns."""
        found: dict[tuple[int, int], list[str]] = {}
        for number, line, column in LOCATION.findall(self.text):
            found.setdefault((int(line), int(column)), []).append(number)
        return found

    @cached_property
    def stores(self) -> dict[str, list[tuple[str, int]]]:
        """The stores by the numbers of their places: the register with the address, and where the store stands in the text."""
        found: dict[str, list[tuple[str, int]]] = {}
        for match in STORE.finditer(self.text):
            found.setdefault(match[2], []).append((match[1], match.start()))
        return found

    def body(self, place: int) -> Body:
        """The function around a place of the text."""
        return Body(self.text[self.text.rfind("\ndefine ", 0, place) : self.text.find("\n}", place)])

    def file_of(self, number: str | None) -> str:
        """The name of the file of a scope, without its folder."""
        while number and not (file := self.types.link(number, "file")):
            number = self.types.link(number, "scope")
        named = re.search(r'filename: "([^"]*)"', self.types.node(file)) if number else None
        return os.path.basename(named[1]) if named else ""

    def followed(self, register: str, body: Body, left: int = MOST_INSTRUCTIONS) -> Address | None:
        """What a register points to, as far as that is known."""
        word, rest = body.assigned.get(register, ("", ""))
        if not left:
            return None
        if word == "getelementptr":
            return self.element(rest, body, left - 1)
        if word == "alloca":
            type_ = self.types.link(body.declared.get(register), "type")
            return Address(type_) if type_ else None
        if word == "load" and (loaded := re.match(r"ptr, ptr (%[^,]+),", rest)):
            held = self.followed(loaded[1], body, left - 1)
            pointer = self.leaf(held.type, held.offset) if held else None
            pointed = self.types.link(pointer, "baseType") if self.types.tag(pointer) in POINTERS else None
            return Address(pointed) if pointed else None
        return None

    def element(self, rest: str, body: Body, left: int) -> Address | None:
        """What a `getelementptr` points to, from its operands."""
        tokens = Tokens(rest)
        while tokens.peek() in FLAGS:
            tokens.take()
        try:
            type_ = read_type(tokens, self.named)
            tokens.take(",")
            tokens.take("ptr")
            base = self.followed(tokens.take(), body, left)
            indices = []
            while tokens.take_if(",") and tokens.peek() in ("i32", "i64"):
                tokens.take()
                indices.append(tokens.take())
            return self.indexed(base, type_, indices) if base and indices else None
        except Refused:
            return None

    def indexed(self, place: Address, type_: Type, indices: list[str]) -> Address | None:
        """A place after indices. A first one that only the run knows is that of a neighbour, which is of the same type."""
        if is_number(indices[0]):
            place = place.moved(int(indices[0]) * size(type_))
        elif place.offset or place.steps or self.types.bytes(place.type) != size(type_):
            return None
        for index in indices[1:]:
            if isinstance(type_, str) or type_[0] not in ("array", "struct", "packed"):
                return None
            if type_[0] != "array":
                place = place.moved(field_offsets(type_)[int(index)])
                type_ = type_[1][int(index)]
                continue
            count, type_ = type_[1], type_[2]
            if is_number(index):
                place = place.moved(int(index) * size(type_))
            else:
                element = self.leaf(place.type, place.offset, size(type_))
                inner = (element, 0) if element else None
                place = place._replace(steps=(*place.steps, (size(type_), count)), inner=inner)
        return place

    def leaf(self, number: str | None, offset: int, bytes_: int = 0) -> str | None:
        """The innermost type at an offset; with a number of bytes, the element of an array that has so many."""
        types = self.types
        number = types.plain(number)
        if types.tag(number) == "DW_TAG_array_type":
            element = types.plain(types.link(number, "baseType"))
            if not types.bytes(element) or types.bytes(element) == bytes_:
                return element if types.bytes(element) else None
            return self.leaf(element, offset % types.bytes(element), bytes_)
        if types.tag(number) not in CLASSES:
            return None if bytes_ else number
        for start, count, member in types.members(number):
            if start <= offset < start + count:
                return self.leaf(types.link(member, "baseType"), offset - start, bytes_)
        return None

    def is_byte(self, number: str | None, offset: int) -> bool:
        """Whether a type has a single byte of an array at an offset."""
        return self.leaf(number, offset, 1) is not None

    def described(self, stored: Place, address: int, item: Global) -> str:
        """What a store writes in an arena, `records[3].ptr of a Page at memory+2960`; an empty text if its pointer is that of no class,
        or of the arena itself."""
        place = self.of(stored)
        if not place:
            return ""
        bases, inner = self.bases(place, address, item), place.inner
        if len(bases) != 1 and inner and self.types.tag(inner[0]) in CLASSES:
            place, bases = Address(inner[0]), [address - inner[1]]
        number = self.types.plain(place.type)
        if self.types.tag(number) not in CLASSES or not bases or self.is_byte(number, address - bases[0]):
            return ""
        path, where = self.types.within(number, address - bases[0]).lstrip("."), f"at {at(item, bases[0])}"
        if len(bases) > 1:
            path, where = re.sub(r"\[\d+\]", "[..]", path), f"around {at(item, address)}"
        name = shortened(self.qualified(number))
        return f"{path} of {'an' if name[0] in 'AEIOUaeiou' else 'a'} {name} {where}" if path and name else ""

    def bases(self, place: Address, address: int, item: Global) -> list[int]:
        """The addresses in an arena at which the object of a place may begin."""
        bytes_, aligned = self.types.bytes(place.type), self.alignment(place.type)
        if any(count > MOST_PLACES for _, count in place.steps):
            return []
        ranges = [range(0, count * distance, distance) for distance, count in place.steps]
        found = {
            address - place.offset - sum(more) for more in itertools.islice(itertools.product(*ranges), MOST_PLACES)
        }
        end = item.address + item.size - bytes_
        return sorted(base for base in found if item.address <= base <= end and base % aligned == 0)

    def alignment(self, number: str | None) -> int:
        """The alignment of a type, in bytes."""
        types = self.types
        if own := types.value(number, "align") // 8:
            return own
        number = types.plain(number)
        if types.tag(number) in CLASSES:
            of_members = (self.alignment(types.link(member, "baseType")) for _, _, member in types.members(number))
            return max([types.value(number, "align") // 8, 1, *of_members])
        if types.tag(number) == "DW_TAG_array_type":
            return self.alignment(types.link(number, "baseType"))
        return min(max(types.bytes(number), 1), 16)

    def qualified(self, number: str | None) -> str:
        """The name of a type with those of the namespaces and classes around it; an empty text if it has none."""
        found = []
        while number and (name := NAME.search(self.types.node(number))):
            found.append(name[1])
            number = self.types.link(number, "scope")
        return "::".join(reversed(found))


def is_number(index: str) -> bool:
    """Whether an index is a constant."""
    return index.lstrip("-").isdecimal()


def at(item: Global, address: int) -> str:
    """An address as a global and a distance."""
    name = re.sub(r"\.\d+$", "", item.name)
    return demangled([name]).get(name, name) + (f"+{address - item.address}" if address > item.address else "")
