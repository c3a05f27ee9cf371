"""The lines of a function in the subset, as they are written: names, instructions, blocks."""
from __future__ import annotations

from typing import TYPE_CHECKING, Callable, NamedTuple

from .lines import with_comment
from .names import clean_name

if TYPE_CHECKING:
    from .dispatch import CallType
    from .function import Function
    from .tokens import Tokens

# Lowers an instruction: its function, the tokens after its word, the register that it assigns, and its word.
Instruction = Callable[["Function", "Tokens", str, str], None]


class Phi(NamedTuple):
    """A phi; the names of the blocks of its edges are known when all blocks are written."""

    text: str
    edges: list[tuple[str, str]]
    comment: str


class CallLine(str):
    """A line with a call; `callee` is the name of the function, or the type of a call by pointer."""

    callee: str | CallType


class Writer:
    """Writes a function line by line, with `comment` after each line. A block of clang's text may become several blocks."""

    def __init__(self, added_comment: str) -> None:
        self.names: dict[str | tuple[str, int], str] = {}
        self.taken: dict[str, int] = {}
        self.added = 0
        self.out: list[str | Phi] = []
        self.entry: list[str] = []
        self.ends: dict[str, str] = {}
        self.moved: dict[str, str] = {}
        self.origin = self.comment = ""
        self.added_comment = added_comment
        self.has_ended = False

    # Names.

    def register(self, written: str) -> str:
        """The register or the label of a name in clang's text."""
        if written not in self.names:
            self.names[written] = clean_name(written[1:], self.taken, "v")
        return "%" + self.names[written]

    def piece(self, written: str, number: int) -> str:
        """The register of one of several pieces."""
        key = (written, number)
        if key not in self.names:
            self.names[key] = clean_name(f"{written[1:]}.{number}", self.taken, "v")
        return "%" + self.names[key]

    def fresh(self, name: str) -> str:
        """A register or a label that clang's text does not have."""
        return "%" + clean_name(name, self.taken, "v")

    def added_name(self) -> str:
        """The register of an instruction that clang's text does not have."""
        self.added += 1
        return self.fresh(f"added.{self.added}")

    # Instructions.

    def put(self, instruction: str) -> None:
        """Writes an instruction."""
        self.out.append(with_comment("  " + instruction, self.comment))

    def assign(self, target: str, instruction: str) -> None:
        """Writes an instruction that assigns a register of clang's text, or none."""
        self.put(f"{self.register(target)} = {instruction}" if target else instruction)

    def note_call(self, callee: str | CallType) -> None:
        """Notes that the last line is a call, and what it calls."""
        line = CallLine(self.out[-1])
        line.callee = callee
        self.out[-1] = line

    def emit(self, instruction: str) -> str:
        """Writes an instruction that serves another one; its register."""
        register = self.added_name()
        self.put(f"{register} = {instruction}")
        return register

    def emit_at_entry(self, instruction: str) -> str:
        """The same at the start of the function."""
        register = self.added_name()
        self.entry.append(f"{register} = {instruction}")
        return register

    def put_phi(self, text: str, edges: list[tuple[str, str]]) -> None:
        """Writes a phi, by values and blocks of clang's text."""
        self.out.append(Phi(text, edges, self.comment))

    def put_pieces(self, address: str, types: tuple[str, ...], values: list[str]) -> None:
        """Stores pieces as the fields of a struct."""
        for number, (type_, value) in enumerate(zip(types, values)):
            self.put(f"store {type_} {value}, ptr {self.field(address, types, number)}")

    def take_pieces(self, address: str, types: tuple[str, ...], registers: list[str]) -> None:
        """Loads pieces from the fields of a struct."""
        for number, (type_, register) in enumerate(zip(types, registers)):
            at = self.field(address, types, number)
            self.put(f"{register} = load {type_}, ptr {at}")

    def field(self, address: str, types: tuple[str, ...], number: int) -> str:
        """The address of a field of a struct of pieces."""
        if not number:
            return address
        return self.emit(f"getelementptr {struct_of(types)}, ptr {address}, i64 0, i32 {number}")

    # Blocks.

    def begin(self, label: str) -> None:
        """Begins a block."""
        self.out.append(f"{label}:")
        self.has_ended = False

    def begin_origin(self, label: str) -> None:
        """Begins a block of clang's text."""
        self.begin(label)
        self.origin = label

    def go_on(self, label: str) -> None:
        """Begins a block that continues the current block of clang's text."""
        self.begin(label)
        self.ends[self.origin] = label

    def guard(self, condition: str, name: str) -> None:
        """Continues if a condition holds, and traps otherwise."""
        inside, trap = self.fresh(f"{self.origin}.{name}"), self.fresh(f"{self.origin}.{name}.trap")
        self.put(f"br i1 {condition}, label {inside}, label {trap}")
        self.begin(trap[1:])
        self.put("unreachable")
        self.go_on(inside[1:])

    def end(self, instruction: str) -> None:
        """Ends the block, though clang's block may go on."""
        self.put(instruction)
        self.has_ended = True

    def reopen(self) -> None:
        """Goes on with what clang has in a block after its end. No run comes here, but other blocks may name what it defines."""
        last = self.out.pop()
        ended, rest = (self.fresh(f"{self.origin}.{word}") for word in ("ended", "rest"))
        self.put(f"br i1 true, label {ended}, label {rest}")
        self.begin(ended[1:])
        self.out.append(last)
        self.go_on(rest[1:])

    def is_at_label(self) -> bool:
        """Whether nothing but phis follows the label of the block."""
        last = next(line for line in reversed(self.out) if isinstance(line, str))
        return not last.startswith("  ")

    def body(self) -> list[str]:
        """The lines, with those of the entry block after its label."""
        entry = [with_comment(f"  {line}", self.added_comment) for line in self.entry]
        shown = [line if isinstance(line, str) else self.shown_phi(line) for line in self.out]
        return [*shown[:1], *entry, *shown[1:]]

    def shown_phi(self, phi: Phi) -> str:
        """A phi; its edges come from the last parts of the blocks of clang's text, and of blocks that are divided later."""
        ends = [(value, self.ends.get(block, block)) for value, block in phi.edges]
        edges = ", ".join(f"[ {value}, %{self.moved.get(end, end)} ]" for value, end in ends)
        return with_comment(f"  {phi.text} {edges}", phi.comment)


def struct_of(types: tuple[str, ...]) -> str:
    """The struct of pieces."""
    return "{ " + ", ".join(types) + " }"
