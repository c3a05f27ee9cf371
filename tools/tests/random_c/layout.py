"""The types of persistent objects: structs whose layout, by the rules of x86-64, is known byte for byte."""
from __future__ import annotations

import random
from dataclasses import dataclass, field

SIZES = {
    "uint8_t": 1,
    "int8_t": 1,
    "uint16_t": 2,
    "int16_t": 2,
    "uint32_t": 4,
    "int32_t": 4,
    "uint64_t": 8,
    "int64_t": 8,
    "float": 4,
    "double": 8,
    "unsigned __int128": 16,
}
FLOATS = ("float", "double")
UNITS = ["uint16_t", "uint32_t", "uint64_t"]


@dataclass
class Leaf:
    """A scalar, or an array of scalars if `count` is not 0, and where it lies in its object."""

    path: str
    type: str
    offset: int
    count: int = 0

    @property
    def size(self) -> int:
        """The size of one scalar."""
        return SIZES[self.type]


@dataclass
class BitField:
    """A bit-field: its unit of storage in the object, and its bits in the unit."""

    path: str
    offset: int
    unit: int
    first: int
    width: int


@dataclass
class Group:
    """A struct inside an object: the name of its type, and its scalars at their offsets in the object."""

    path: str
    type: str
    offset: int
    size: int
    leaves: list[Leaf]


@dataclass
class Object:
    """A persistent global: its number in its file, its name and its parts. All of its bytes that `known` lacks are padding."""

    number: int
    name: str
    declarations: list[str] = field(default_factory=list)
    leaves: list[Leaf] = field(default_factory=list)
    bits: list[BitField] = field(default_factory=list)
    groups: list[Group] = field(default_factory=list)
    size: int = 0
    known: set[int] = field(default_factory=set)

    def ranges(self) -> list[tuple[int, int]]:
        """The bytes without padding, as offsets and sizes."""
        found: list[tuple[int, int]] = []
        for at in sorted(self.known):
            if found and sum(found[-1]) == at:
                found[-1] = found[-1][0], found[-1][1] + 1
            else:
                found.append((at, 1))
        return found


class Maker:
    """Lays out the fields of an object one after another."""

    def __init__(self, chance: random.Random, prefix: str, number: int) -> None:
        self.chance, self.prefix = chance, prefix
        self.object = Object(number, f"{prefix}pm{number}")
        self.fields: list[str] = []
        self.end, self.alignment = 0, 1

    def place(self, size: int, alignment: int) -> int:
        """The offset of the next field of a size."""
        offset = -(-self.end // alignment) * alignment
        self.end, self.alignment = offset + size, max(alignment, self.alignment)
        return offset

    def scalar(self, name: str) -> None:
        """A number, or an array of numbers."""
        type_, count = self.chance.choice(list(SIZES)), self.chance.choice([0, 0, 2, 3, 5, 8, 16])
        if SIZES[type_] == 16:
            count = min(count, 3)
        offset = self.place(SIZES[type_] * max(count, 1), SIZES[type_])
        self.fields.append(f'{type_} {name}{f"[{count}]" if count else ""};')
        self.leaf(Leaf(name, type_, offset, count))

    def leaf(self, leaf: Leaf) -> None:
        """Adds a leaf, whose bytes are no padding."""
        self.object.leaves.append(leaf)
        self.object.known.update(range(leaf.offset, leaf.offset + leaf.size * max(leaf.count, 1)))

    def text(self, name: str) -> None:
        """An array of bytes for texts and copies."""
        count = self.chance.randint(9, 90)
        self.fields.append(f"char {name}[{count}];")
        self.leaf(Leaf(name, "uint8_t", self.place(count, 1), count))

    def union(self, name: str) -> None:
        """The same bytes as words, halves and single bytes."""
        offset = self.place(16, 8)
        self.fields.append(f"union {{ uint64_t w[2]; uint16_t h[8]; unsigned char b[16]; }} {name};")
        for part, type_ in (("w", "uint64_t"), ("h", "uint16_t"), ("b", "uint8_t")):
            self.leaf(Leaf(f"{name}.{part}", type_, offset, 16 // SIZES[type_]))

    def bit_fields(self, name: str) -> None:
        """Bit-fields that fill one unit at most."""
        unit = self.chance.choice(UNITS)
        left, first, parts = SIZES[unit] * 8, 0, []
        offset = self.place(SIZES[unit], SIZES[unit])
        while left:
            width = self.chance.randint(1, min(left, 40))
            parts.append(f"{unit} b{first} : {width};")
            self.object.bits.append(BitField(f"{name}.b{first}", offset, SIZES[unit], first, width))
            left, first = left - width, first + width
        self.object.known.update(range(offset, offset + SIZES[unit]))
        self.fields.append(f'struct {{ {" ".join(parts)} }} {name};')

    def group(self, name: str) -> None:
        """A struct with a type of its own, often with padding."""
        types = [self.chance.choice(list(SIZES)[:10]) for _ in range(self.chance.randint(2, 5))]
        alignment, end, inside = max(SIZES[type_] for type_ in types), 0, []
        for type_ in types:
            end = -(-end // SIZES[type_]) * SIZES[type_]
            inside.append((type_, end))
            end += SIZES[type_]
        size = -(-end // alignment) * alignment
        offset, tag = self.place(size, alignment), f"{self.prefix}g{self.object.number}{name}"
        self.object.declarations.append(f'struct {tag} {{ {" ".join(f"{type_} m{at};" for type_, at in inside)} }};')
        self.fields.append(f"struct {tag} {name};")
        leaves = [Leaf(f"{name}.m{at}", type_, offset + at) for type_, at in inside]
        for leaf in leaves:
            self.leaf(leaf)
        self.object.groups.append(Group(name, f"struct {tag}", offset, size, leaves))


def make_object(chance: random.Random, prefix: str, number: int) -> Object:
    """A random object, with its declaration and assertions of its layout."""
    maker = Maker(chance, prefix, number)
    forms = [maker.scalar, maker.text, maker.union, maker.bit_fields, maker.group]
    chosen = [maker.scalar, maker.text, *chance.choices(forms, weights=[4, 1, 1, 2, 2], k=chance.randint(2, 6))]
    chance.shuffle(chosen)
    for place, form in enumerate(chosen):
        form(f"f{place}")
    made = maker.object
    made.size = -(-maker.end // maker.alignment) * maker.alignment
    tag = f"{prefix}t{number}"
    made.declarations.append(f'struct {tag} {{ {" ".join(maker.fields)} }};')
    made.declarations.append(f'_Static_assert(sizeof(struct {tag}) == {made.size}, "size");')
    for leaf in made.leaves:
        made.declarations.append(
            f'_Static_assert(__builtin_offsetof(struct {tag}, {leaf.path}) == {leaf.offset}, "offset");'
        )
    linkage = chance.choice(["static ", ""])
    made.declarations.append(f"PERSISTENT {linkage}_Alignas(64) struct {tag} {made.name};")
    return made
