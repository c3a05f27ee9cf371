"""Variable arguments in the layout of x86-64 (System V ABI), where the code that clang makes of `va_arg` looks for them.

A call puts them into one block: first a word for each register that passes integers and pointers, then 16 bytes for each register that
passes floating-point numbers and vectors, then the words of the stack."""
from __future__ import annotations

from typing import TYPE_CHECKING

from .layout import words
from .refusals import Refused
from .stack import block
from .types import FLOATS, Type, alignment, pieces, show_type, size
from .vectors import joined

if TYPE_CHECKING:
    from .calls import Argument, Call
    from .function import Function

WORD = 8
# The registers that pass integers and pointers, and those that pass floating-point numbers and vectors, with their size.
REGISTERS = 6
FLOAT_REGISTERS = 8
FLOAT_REGISTER = 16
FLOATS_BEGIN = WORD * REGISTERS
STACK_BEGINS = FLOATS_BEGIN + FLOAT_REGISTER * FLOAT_REGISTERS
# The words of the block of a call without variable arguments.
ZEROS = STACK_BEGINS // WORD + REGISTERS


def registers_of(type_: Type, copied: Type | None, taken: int) -> int:
    """The number of registers that pass an argument if some are taken. The stack passes what is copied, what has no register, and
    a number of two words unless two registers are free."""
    if copied is not None or type_ in FLOATS or is_vector(type_):
        return 0
    count, free = len(pieces(type_)), REGISTERS - taken
    return min(count, free) if count <= free or alignment(type_) <= WORD else 0


def is_vector(type_: Type) -> bool:
    """Whether a type is a vector."""
    return isinstance(type_, tuple) and type_[0] == "vector"


def float_registers_of(type_: Type, taken: int) -> int:
    """The number of registers for floating-point numbers that pass an argument if some are taken. The stack passes a long double."""
    return int((type_ in FLOATS or is_vector(type_)) and type_ != "x86_fp80" and taken < FLOAT_REGISTERS)


class Block:
    """The block with the variable arguments of a call: its name, the next free registers, and where the stack's words end."""

    def __init__(self, function: Function):
        self.function = function
        self.name = function.fresh("variable.arguments")
        self.register = self.float_register = 0
        self.end = STACK_BEGINS
        self.alignment = WORD

    def at(self, offset: int) -> str:
        """The address of a word."""
        return self.function.emit(f"getelementptr i8, ptr {self.name}, i64 {offset}") if offset else self.name

    def on_stack(self, length: int, least: int = WORD) -> str:
        """The address of an argument on the stack, at a multiple of `least` bytes."""
        self.alignment = max(self.alignment, least)
        start = -(-self.end // least) * least
        self.end = start + -(-length // WORD) * WORD
        return self.at(start)

    def next_word(self) -> str:
        """The address of an argument of one word: the next register, or the stack if no register is free."""
        if self.register < REGISTERS:
            self.register += 1
            return self.at(WORD * (self.register - 1))
        return self.on_stack(WORD)

    def skip(self, argument: Argument) -> None:
        """Takes the registers of an argument that is not variable."""
        self.register += registers_of(argument.type, argument.copied, self.register)
        self.float_register += float_registers_of(argument.type, self.float_register)

    def allocate(self) -> None:
        """Allocates the block when the function begins."""
        least = self.alignment if self.alignment > WORD else 0
        self.function.entry += block(self.function, self.name, words(self.end, WORD), least)

    def put(self, argument: Argument) -> None:
        """Stores an argument."""
        if argument.copied is not None:
            length = size(argument.copied)
            at = self.on_stack(length, max(WORD, alignment(argument.copied), argument.alignment))
            helper = self.function.module.copy_helper(min(WORD, alignment(argument.copied)), length)
            self.function.put(f"call void {helper}(ptr {at}, ptr {argument.values[0]}, i64 {length})")
            return
        types, values = pieces(argument.type), argument.values
        if is_vector(argument.type):
            if size(argument.type) > FLOAT_REGISTER:
                raise Refused(f"a variable argument of {show_type(argument.type)}", "vector")
            values = joined(self.function, argument.type, values)
            types = ("i64",) * len(values) if size(argument.type) >= WORD else (f"i{8 * size(argument.type)}",)
        if float_registers_of(argument.type, self.float_register):
            start = FLOATS_BEGIN + FLOAT_REGISTER * self.float_register
            self.float_register += 1
            places = [self.at(start + WORD * number) for number in range(len(types))]
        elif registers_of(argument.type, None, self.register):
            places = [self.next_word() for _ in types]
        elif alignment(argument.type) <= WORD:
            on_stack = argument.type in FLOATS or is_vector(argument.type)
            places = [self.on_stack(WORD) if on_stack else self.next_word() for _ in types]
        else:
            self.on_stack(WORD * len(types), alignment(argument.type))
            places = [self.at(self.end - WORD * left) for left in range(len(types), 0, -1)]
        for type_, value, place in zip(types, values, places):
            self.function.put(f"store {type_} {value}, ptr {place}")


def variable_block(function: Function, call: Call) -> str:
    """The block with the variable arguments of a call; an empty text if there are none."""
    variable = call.arguments[call.fixed :]
    if not variable:
        return ""
    passed = Block(function)
    for argument in call.arguments[: call.fixed]:
        passed.skip(argument)
    for argument in variable:
        passed.put(argument)
    passed.allocate()
    return passed.name


def no_arguments(function: Function) -> str:
    """The block of zeros that a call without variable arguments passes: a called function may read one all the same."""
    module = function.module
    if not module.no_arguments:
        module.no_arguments = module.start.global_name("no.arguments")
        module.start.globals.append(
            f"@{module.no_arguments} = constant {show_type(words(WORD * ZEROS, WORD))} zeroinitializer"
        )
    return f"@{module.no_arguments}"


def variable_start(function: Function, at: str) -> None:
    """`va_start`: the list of the variable arguments at an address."""
    block = function.variable_block or "null"
    stack = function.emit(f"getelementptr i8, ptr {block}, i64 {STACK_BEGINS}")
    floats = FLOATS_BEGIN + FLOAT_REGISTER * function.float_registers_taken
    fields = (
        (0, f"i32 {WORD * function.registers_taken}"),
        (4, f"i32 {floats}"),
        (8, f"ptr {stack}"),
        (16, f"ptr {block}"),
    )
    for offset, text in fields:
        place = function.emit(f"getelementptr i8, ptr {at}, i64 {offset}") if offset else at
        function.put(f"store {text}, ptr {place}")


def variable_copy(function: Function, to: str, start: str) -> None:
    """`va_copy`: a copy of a list."""
    function.put(f"call void {function.module.copy_helper(WORD, 24)}(ptr {to}, ptr {start}, i64 24)")
