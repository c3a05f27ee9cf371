"""A text in hippo's subset as functions, blocks and instructions, each with its places in C."""
import re
from bisect import bisect_right
from collections.abc import Iterator, Sequence
from typing import NamedTuple

from lowering import lines
from lowering.dispatch import DISPATCH
from lowering.lines import Frame
from lowering.tokens import Tokens
from lowering.types import alignment, read_type, size

from .letters import shown

HEAD = re.compile(r"define \S+ @([-\w$.]+)\(", re.ASCII)
GLOBAL = re.compile(r"@([-\w$.]+) = (global|constant) ", re.ASCII)
GLOBAL_END = re.compile(r'(, section "\.pm")?(?:, align (\d+))?$')
CALLED = re.compile(r"(?:%\S+ = )?call \S+ @([-\w$.]+)\(", re.ASCII)
REGION_BASE = 1 << 32
Site = tuple[str, str, int]


class Instruction(NamedTuple):
    """An instruction without its comment; `added` is true if tools/lower added it, so that it has no place."""

    text: str
    frames: tuple[Frame, ...] = ()
    added: bool = False

    @property
    def callee(self) -> str:
        """The function that is called, or nothing."""
        found = CALLED.match(self.text)
        return found[1] if found else ""


class Block:
    """A basic block: its phis, then its instructions with the one that ends it."""

    def __init__(self, label: str) -> None:
        self.label = label
        self.phis: list[str] = []
        self.instructions: list[Instruction] = []


class Function:
    """A function: its head as it stands in the text, its name and place in C, its blocks."""

    def __init__(self, name: str, head: str, comment: str) -> None:
        self.name, self.head = name, head
        place = lines.read(comment)
        self.place = place[0] if place else None
        self.added = comment.startswith(lines.ADDED)
        self.refusal = lines.REFUSED.fullmatch(comment)
        self.blocks: list[Block] = []

    @property
    def name_in_c(self) -> str:
        """The function's name in C; for a function that tools/lower added, its name without its number."""
        if self.place and self.place.function:
            return shown(self.place.function)
        return self.name.split(".")[0] if self.added else self.name

    @property
    def is_dispatch(self) -> bool:
        """Whether tools/lower added the function for calls by pointer: it calls what its first argument names."""
        return self.added and self.name_in_c == DISPATCH


class Global(NamedTuple):
    """A global: its name, whether it is persistent, its address, its size and its alignment in bytes."""

    name: str
    persistent: bool
    address: int
    size: int
    alignment: int


class Program:
    """A text of hippo's subset; `head` has its lines before the first function."""

    def __init__(self, text: str) -> None:
        self.head: list[str] = []
        self.functions: dict[str, Function] = {}
        self.comments: dict[str, tuple[tuple[Frame, ...], bool]] = {"": ((), False)}
        self.read(text)
        self.globals = laid_out([line for line in self.head if line.startswith("@")])
        self.persistent = [item for item in self.globals if item.persistent]
        self.starts = [item.address for item in self.persistent]
        self.blocks = {
            (function.name, block.label): block for function in self.functions.values() for block in function.blocks
        }

    def read(self, text: str) -> None:
        """Reads the lines of a text."""
        function = None
        for line in text.split("\n"):
            written, _, comment = line.partition(" ; ")
            if function is None:
                function = self.read_head(written, comment)
            elif written == "}":
                function = None
            elif not written.startswith(" "):
                function.blocks.append(Block(written[:-1]))
            elif " = phi " in written:
                function.blocks[-1].phis.append(written.strip())
            else:
                function.blocks[-1].instructions.append(Instruction(written.strip(), *self.places(comment)))

    def read_head(self, written: str, comment: str) -> Function | None:
        """The function that a line begins; any other line goes to `head`."""
        found = HEAD.match(written)
        if not found:
            if written.strip():
                self.head.append(written)
            return None
        function = self.functions[found[1]] = Function(found[1], written, comment)
        return function

    def places(self, comment: str) -> tuple[tuple[Frame, ...], bool]:
        """The frames of a comment, and whether it marks an added instruction; equal comments share one answer."""
        if comment not in self.comments:
            self.comments[comment] = (tuple(lines.read(comment)), comment == lines.ADDED)
        return self.comments[comment]

    def called(self, path: Sequence[Site], level: int) -> Function:
        """The function that the call at a level of a path runs; for a call by pointer the one that the pointer names."""
        callee = self.functions[path[level - 1][0]]
        return self.functions[path[level - 2][0]] if callee.is_dispatch and level > 1 else callee

    def instruction(self, site: Site) -> Instruction | None:
        """The instruction of a site, if there is one."""
        block = self.blocks.get(site[:2])
        return block.instructions[site[2]] if block and site[2] < len(block.instructions) else None

    def at(self, site: Site) -> Instruction:
        """The instruction of a site of this program."""
        return self.blocks[site[:2]].instructions[site[2]]

    def sites(self) -> Iterator[tuple[Site, Instruction]]:
        """Each site with its instruction, in the order of the text."""
        for name, function in self.functions.items():
            for block in function.blocks:
                for index, instruction in enumerate(block.instructions):
                    yield (name, block.label, index), instruction

    def region_size(self) -> int:
        """The size of the region, in whole cache lines."""
        end = max((item.address + item.size for item in self.persistent), default=REGION_BASE)
        return -(-(end - REGION_BASE) // 64) * 64

    def object_at(self, address: int) -> tuple[Global, int] | None:
        """The persistent global that has the address, and how far into it the address lies."""
        number = bisect_right(self.starts, address) - 1
        if number < 0 or address >= self.starts[number] + self.persistent[number].size:
            return None
        return self.persistent[number], address - self.starts[number]


def laid_out(texts: list[str]) -> list[Global]:
    """The persistent globals where hippo lays them, at the lowest base, and the volatile ones from 65,536 on."""
    ends = {True: REGION_BASE, False: 65536}
    found = []
    for text in texts:
        name, end = GLOBAL.match(text), GLOBAL_END.search(text)
        if name is None or end is None:
            raise ValueError(f"no global: {text[:90]}")
        type_ = read_type(Tokens(type_text(text, name.end())), {})
        persistent = end[1] is not None
        at = max(alignment(type_), int(end[2] or 1))
        address = -(-ends[persistent] // at) * at
        ends[persistent] = address + size(type_)
        found.append(Global(name[1], persistent, address, size(type_), at))
    return found


def type_text(text: str, start: int) -> str:
    """The type that begins at a place, up to the end of its brackets or of its word."""
    depth = 0
    for found in re.compile(r"[\[{<]|[\]}>]| ").finditer(text, start):
        depth += found[0] in "[{<"
        depth -= found[0] in "]}>"
        if depth == 0:
            return text[start : found.end()]
    return text[start:]


def parse_site(text: str) -> Site:
    """`@function:label:index` as a site."""
    function, label, index = text.rsplit(":", 2)
    return function[1:], label, int(index)


def show_site(site: Site) -> str:
    """A site as `@function:label:index`."""
    return f"@{site[0]}:{site[1]}:{site[2]}"
