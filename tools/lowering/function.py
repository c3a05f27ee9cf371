"""A function of the program: its head, and its lines one by one."""
from __future__ import annotations

import re
from typing import TYPE_CHECKING, NamedTuple

from .constants import zero_of
from .instructions import INSTRUCTIONS
from .jumps import put_tests
from .names import function_name
from .refusals import Refused
from .stack import block, padded
from .tokens import LINKAGE, Tokens
from .types import Type, alignment, bits, pieces, read_type, show_type, size
from .values import collect_same_values, read_operand
from .users import refuse
from .variable_arguments import WORD, float_registers_of, registers_of
from .writer import Writer

if TYPE_CHECKING:
    from .module import Module

LABEL = re.compile(r'("[^"]*"|[-A-Za-z$._0-9]+):(\s*;.*)?$')
TARGET = re.compile(r'(%(?:"[^"]*"|[-A-Za-z$._0-9]+)) = ')
DEFAULT = re.compile(r'switch .*?, label (%(?:"[^"]*"|[-A-Za-z$._0-9]+)) \[')
ADDED_COMMENT = " ; added"


class Signature(NamedTuple):
    """How a function is called in the lowered text."""

    result: Type
    parameters: tuple[str, ...]
    by_value: tuple[bool, ...]
    variadic: bool

    @property
    def by_pointer(self) -> bool:
        """Whether the result goes through a pointer, which is the first parameter."""
        return len(pieces(self.result)) > 1

    @property
    def returned(self) -> str:
        """The type that stands before the function's name."""
        found = pieces(self.result)
        return found[0] if len(found) == 1 else "void"


class Function(Writer):
    """Reads the lines of a function, and writes its text in the subset."""

    def __init__(self, module: Module, head: str, body: list[str]) -> None:
        super().__init__(ADDED_COMMENT if module.line_tables else "")
        self.module: Module = module
        self.values: dict[str, list[str]] = {}
        self.same_values: dict[str, str] = {}
        self.blocks: set[str] = set()
        self.metadata: dict[str, str] = {}
        self.parameters: list[str] = []
        self.result_slot: str = ""
        self.variable_block: str = ""
        self.registers_taken: int = 0
        self.float_registers_taken: int = 0
        self.activation: str = ""
        self.refusal: Refused | None = None
        self.sites: list[tuple[str, list[tuple[str, str]]]] = []
        head, metadata = module.places.without_metadata(head)
        self.head_place: str = module.places.of(metadata)
        self.head_comment: str = module.line_tables.head_comment(metadata) if module.line_tables else ""
        self.lines: list[tuple[str, dict[str, str]]] = [
            module.places.without_metadata(line) for line in join_switches(body)
        ]
        self.definitions: dict[str, str] = {found[1]: line for line, _ in self.lines if (found := TARGET.match(line))}
        self.defaults: set[str] = {found[1] for line, _ in self.lines if (found := DEFAULT.match(line))}
        self.written_name: str = function_name(head)
        self.signature: Signature = Signature("void", (), (), False)
        try:
            self.read_head(Tokens(head))
        except Refused as refusal:
            self.parameters = []
            if module.unsupported.takes(self, refusal):
                self.refusal = refusal
            else:
                module.refusals.add(refusal, self.head_place, head[:110])

    def read_head(self, tokens: Tokens) -> None:
        """The function's parameters and its result."""
        tokens.take("define")
        tokens.take_all(LINKAGE)
        tokens.skip_attributes()
        result = self.type(tokens)
        if self.written_name == "@main" and result != "i32":
            raise Refused("main has another result than int", "main_type")
        tokens.take(self.written_name)
        tokens.take("(")
        types: list[str] = []
        by_value: list[bool] = []
        variadic = False
        if len(pieces(result)) > 1:
            self.result_slot = self.fresh("result")
            self.parameters.append(f"ptr {self.result_slot}")
        while tokens.peek() != ")":
            if tokens.take_if("..."):
                variadic = True
                break
            type_ = self.type(tokens)
            least, written = tokens.skip_attributes()
            copied = None if written is None else self.type(written)
            name = tokens.take() if tokens.peek() not in (",", ")") else f"%{len(types)}"
            self.parameter(type_, name, copied, least)
            self.registers_taken += registers_of(type_, copied, self.registers_taken)
            self.float_registers_taken += float_registers_of(type_, self.float_registers_taken)
            types += pieces(type_)
            by_value += [copied is not None] * len(pieces(type_))
            tokens.take_if(",")
        if variadic:
            self.variable_block = self.fresh("variable")
            self.parameters.append(f"ptr {self.variable_block}")
        self.signature = Signature(result, tuple(types), tuple(by_value), variadic)

    def parameter(self, type_: Type, written: str, copied: Type | None, least: int) -> None:
        """A parameter; the function copies an aggregate that is passed by value to a block of its alignment."""
        if self.written_name == "@main":
            self.module.start.give_parameter(self, written)
            return
        names = self.results(written, type_)
        if copied is None:
            self.values[written] = names
        else:
            given = self.fresh(f"{names[0][1:]}.given")
            self.entry += block(self, names[0], copied, max(least, WORD))
            helper = self.module.copy_helper(alignment(copied), size(copied))
            self.entry.append(f"call void {helper}(ptr {names[0]}, ptr {given}, i64 {size(copied)})")
            names = [given]
        self.parameters += [f"{piece} {name}" for piece, name in zip(pieces(type_), names)]

    def lower(self) -> None:
        """Writes the lines of the function in the subset; refusals go to the module, or make it a function that traps."""
        if self.refusal:
            return
        collect_same_values(self)
        for line, metadata in self.lines:
            try:
                self.lower_line(line, metadata)
            except Refused as refusal:
                if self.module.unsupported.takes(self, refusal):
                    self.refuse(refusal)
                    return
                refuse(self.module, refusal, self, metadata, line)

    def refuse(self, refusal: Refused) -> None:
        """Makes this a function that traps when it is called."""
        self.refusal = self.refusal or refusal
        self.out, self.sites = [], []

    def text(self) -> str:
        """The function in the subset."""
        if self.refusal:
            return self.module.unsupported.text(self, self.refusal)
        put_tests(self)
        name = self.module.names[self.written_name]
        head = f'define {self.signature.returned} @{name}({", ".join(self.parameters)}) {{{self.head_comment}'
        body = self.body()
        if self.module.has_padded_blocks:
            body = padded(body, self.fresh, self.added_comment)
        return "\n".join([head, *body, "}"])

    def lower_line(self, line: str, metadata: dict[str, str]) -> None:
        """Writes the lines in the subset for a label or an instruction."""
        if label := LABEL.match(line):
            self.begin_origin(self.register("%" + label[1])[1:])
            return
        if self.has_ended:
            if line == "unreachable":
                return
            self.reopen()
        self.comment = self.module.line_tables.comment(metadata) if self.module.line_tables else ""
        self.metadata = metadata
        target = TARGET.match(line)
        if target and target[1] in self.same_values:
            self.check_same(line)
            return
        tokens = Tokens(line[target.end() :] if target else line)
        word = tokens.take()
        if word in ("tail", "musttail", "notail"):
            word = tokens.take("call")
        if word not in INSTRUCTIONS:
            raise unknown(word)
        INSTRUCTIONS[word](self, tokens, target[1] if target else "", word)

    def check_same(self, line: str) -> None:
        """Refuses a value that needs an option that is not given."""
        if "@llvm.threadlocal.address" in line and not self.module.options.single_thread:
            raise Refused("thread-local data", "thread")

    def zero_result(self) -> str:
        """A result that nobody reads."""
        returned = self.signature.returned
        return returned if returned == "void" else f"{returned} {zero_of(returned)}"

    def place(self) -> str:
        """The place in C of the instruction that is lowered, or of the function if clang gives it no line."""
        return self.module.places.of(self.metadata) or self.head_place

    # Types and operands.

    def results(self, written: str, type_: Type) -> list[str]:
        """The registers of the pieces of a value that is assigned."""
        if written in self.values:
            return self.values[written]
        count = len(pieces(type_))
        if count == 1:
            return [self.register(written)]
        return [self.piece(written, number) for number in range(count)]

    def become(self, target: str, type_: Type, values: list[str]) -> None:
        """Gives the pieces of a register their values. Pieces that an earlier line named already become copies of the values."""
        if target not in self.values:
            self.values[target] = values
            return
        for register, piece, value in zip(self.values[target], pieces(type_), values):
            self.put(f"{register} = select i1 true, {piece} {value}, {piece} {value}")

    def type(self, tokens: Tokens) -> Type:
        """The type that stands next."""
        return read_type(tokens, self.module.named_types)

    def integer(self, tokens: Tokens) -> str:
        """The integer type that stands next."""
        type_ = self.type(tokens)
        if isinstance(type_, str) and bits(type_):
            return type_
        raise Refused(f"{show_type(type_)} where an integer stands")

    def operand(self, tokens: Tokens, type_: Type) -> str:
        """The operand of one piece that stands next."""
        return read_operand(self, tokens, type_)[0]

    def argument(self, tokens: Tokens) -> tuple[Type, list[str]]:
        """The type and the pieces of the operand that stand next."""
        type_ = self.type(tokens)
        tokens.skip_attributes()
        return type_, read_operand(self, tokens, type_)

    def address(self, tokens: Tokens) -> str:
        """The pointer operand that stands next, after its type."""
        type_ = self.type(tokens)
        if type_ != "ptr":
            raise Refused(f"{show_type(type_)} where a pointer stands")
        return self.operand(tokens, "ptr")

    def label(self, tokens: Tokens) -> str:
        """`label %name`."""
        tokens.take("label")
        return f"label {self.register(tokens.take())}"


def unknown(word: str) -> Refused:
    """Why an instruction is refused, by its word."""
    return Refused(f"the instruction {word!r} is not in the subset")


def join_switches(body: list[str]) -> list[str]:
    """The lines of a body, with each switch on one line."""
    joined: list[str] = []
    parts: list[str] = []
    for line in body:
        if parts:
            parts.append(line)
            if line.startswith("]"):
                joined.append(" ".join(parts))
                parts = []
        elif line.startswith("switch") and line.endswith("["):
            parts = [line]
        else:
            joined.append(line)
    return joined + parts
