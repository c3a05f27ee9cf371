"""Names of persistent objects as C has them, by the debug information of clang: `ring.slots[3].text[8]`."""
import re
from collections.abc import Callable, Iterator
from concurrent.futures import ThreadPoolExecutor
from functools import cache, cached_property

from lowering.commands import jobs
from lowering.languages import is_source
from lowering.names import demangled

from . import kept_texts
from .clang import emit_text
from .places import Place
from .program import Program
from .reading import compiled_files
from .stored_types import StoredTypes

NODE = re.compile(r"^!(\d+) = (?:distinct )?!(DI\w+|)(?:\((.*)\)|\{(.*)\})$", re.M)
VARIABLE = re.compile(r'^@("[^"]*"|[-\w$.]+) = .*!dbg !(\d+)', re.M | re.ASCII)
CLASSES = ("DW_TAG_structure_type", "DW_TAG_class_type", "DW_TAG_union_type")
SAME_TYPE = ("DW_TAG_typedef", "DW_TAG_const_type", "DW_TAG_volatile_type", "DW_TAG_atomic_type")


class Types:
    """The types of the globals of one C file."""

    def __init__(self, text: str) -> None:
        self.text = text
        self.nodes = {number: fields or items or "" for number, _, fields, items in NODE.findall(text)}
        self.variables: dict[str, str | None] = {}
        self.definitions: dict[str, str] = {}
        for name, number in VARIABLE.findall(text):
            variable = self.link(number, "var") or number
            self.variables[name.strip('"')] = self.link(variable, "type")
            self.definitions[name.strip('"')] = variable

    @cached_property
    def stored(self) -> StoredTypes:
        """The types of the stores of the file."""
        return StoredTypes(self.text, self)

    def node(self, number: str | None) -> str:
        """The fields or the elements of a node; an empty text if there is none."""
        return self.nodes.get(number, "") if number else ""

    def link(self, number: str | None, name: str) -> str | None:
        """The number of the node that a field names."""
        found = re.search(rf"\b{name}: !(\d+)", self.node(number))
        return found[1] if found else None

    def value(self, number: str | None, name: str) -> int:
        """The integer in a field, or 0."""
        found = re.search(rf"\b{name}: (-?\d+)", self.node(number))
        return int(found[1]) if found else 0

    def items(self, number: str | None) -> list[str]:
        """The elements of a type: the fields of a struct, the dimensions of an array."""
        return re.findall(r"!(\d+)", self.node(self.link(number, "elements")))

    def plain(self, number: str | None) -> str | None:
        """A type without its other names."""
        while number and self.tag(number) in SAME_TYPE:
            number = self.link(number, "baseType")
        return number

    def tag(self, number: str | None) -> str | None:
        """The kind of a type."""
        found = re.search(r"\btag: (\w+)", self.node(number))
        return found[1] if found else None

    def bytes(self, number: str | None) -> int:
        """The size of a type."""
        number = self.plain(number)
        return self.value(number, "size") // 8

    def within(self, number: str | None, offset: int) -> str:
        """The path of fields and elements to the innermost object at an offset."""
        number = self.plain(number)
        tag = self.tag(number)
        if number and tag == "DW_TAG_array_type":
            return self.in_array(number, offset)
        for start, bytes_, member in self.members(number):
            if start <= offset < start + bytes_:
                name = re.search(r'\bname: "([^"]*)"', self.nodes[member])
                inner = self.within(self.link(member, "baseType"), offset - start)
                return (f".{name[1]}" if name else "") + inner
        return ""

    def members(self, number: str | None) -> Iterator[tuple[int, int, str]]:
        """The offset, the size and the number of each member and each base of a class; of other types nothing."""
        for member in self.items(number) if self.tag(number) in CLASSES else []:
            if "DIFlagStaticMember" in self.nodes[member]:
                continue
            if self.tag(member) == "DW_TAG_inheritance":
                yield self.value(member, "offset") // 8, self.bytes(self.link(member, "baseType")), member
            elif self.tag(member) == "DW_TAG_member":
                yield self.value(member, "offset") // 8, self.value(member, "size") // 8, member

    def in_array(self, number: str, offset: int) -> str:
        """The same in an array: the indices of the element, and the path in it."""
        element = self.link(number, "baseType")
        size, text = self.bytes(element), ""
        counts = [self.value(item, "count") for item in self.items(number)]
        if not size:
            return ""
        index, offset = offset // size, offset % size
        for count in reversed(counts[1:]):
            text = f"[{index % max(count, 1)}]" + text
            index //= max(count, 1)
        return f"[{index}]" + text + self.within(element, offset)


@cache
def shown(name: str) -> str:
    """The name of a global as the source has it."""
    return demangled([name]).get(name, name)


class Names:
    """The names of persistent objects of a program; the C files are compiled when a name is first needed."""

    def __init__(self, program: Program, files: list[str], clang_of: Callable[[str], list[str]], include: str) -> None:
        self.program, self.include = program, include
        self.files, self.clang_of = files, clang_of
        self.units: list[Types] | None = None
        self.compiled: dict[str, set[str]] = {}

    def of(self, address: int) -> str:
        """The name of the object at an address, as near as it is known."""
        found = self.program.object_at(address)
        if not found:
            return f"{address:#x}"
        item, offset = found
        types, number = self.type_of(item.name, item.size)
        if not types or not number:
            return shown(item.name) + (f"+{offset}" if offset else "")
        return shown(re.sub(r"\.\d+$", "", item.name)) + types.within(number, offset)

    def of_store(self, address: int, place: Place | None) -> str:
        """The name of what a store of the user's at a place stores: in an arena that of the object which the pointer names."""
        name, found = self.of(address), self.program.object_at(address)
        if not found or not place or not place.exact:
            return name
        item, offset = found
        types, number = self.type_of(item.name, item.size)
        if not types or not types.stored.is_byte(number, offset):
            return name
        described = {unit.stored.described(place, address, item) for unit in self.types()} - {""}
        return described.pop() if len(described) == 1 else name

    def type_of(self, name: str, size: int) -> tuple[Types | None, str | None]:
        """The type of the only global with this name, or with this name without a linker's number, and with this size."""
        for wanted in (name, re.sub(r"\.\d+$", "", name)):
            found = {
                unit: unit.variables[wanted]
                for unit in self.types()
                if wanted in unit.variables and unit.bytes(unit.variables[wanted]) == size
            }
            if len(found) == 1:
                return next(iter(found.items()))
        return None, None

    def types(self) -> list[Types]:
        """The types of each C file."""
        if self.units is None:
            with ThreadPoolExecutor(jobs()) as pool:
                texts = list(pool.map(self.debug_text, self.files))
            self.units = [Types(text) for text, file in zip(texts, self.files) if is_source(file)]
            self.compiled = compiled_files(texts)
        return self.units

    def compiled_files(self) -> dict[str, set[str]]:
        """The files that clang read for the program: by their real paths, the digests of their contents."""
        self.types()
        return self.compiled

    def debug_text(self, file: str) -> str:
        """LLVM's text form of a file with debug information; without it, names are those of the globals alone."""
        if not is_source(file):
            with open(file, encoding="latin-1") as text:
                return text.read()
        command = emit_text(self.include, self.clang_of(file), file, "-g", "-gdwarf-5")
        return kept_texts.output_of(command).decode("latin-1")
