"""Calls of the program's functions, of hippo's external functions, and by pointer."""
from __future__ import annotations

from typing import TYPE_CHECKING, NamedTuple

from .assembly import lower_assembly
from .dispatch import CallType
from .externs import EXTERNS
from .intrinsics import is_without_effect, lower_intrinsic, note_left_out
from .jumps import JUMP, SETJMP, lower_jump, lower_setjmp
from .refusals import Refused
from .start import ENDS
from .tokens import FAST_MATH, LINKAGE, Tokens
from .types import Type, pieces
from .values import read_operand
from .variable_arguments import no_arguments, variable_block
from .writer import Instruction, struct_of

if TYPE_CHECKING:
    from .function import Function, Signature

# Calls after which nothing of their block runs; clang writes no `unreachable` after them at -O0.
TRAPS = ("@llvm.trap", "@llvm.ubsantrap", "@llvm.debugtrap")


class Argument(NamedTuple):
    """An argument: its type, its pieces, its known alignment, and the type of what is passed by value."""

    type: Type
    values: list[str]
    alignment: int
    copied: Type | None


class Call(NamedTuple):
    """A call of clang's text; `fixed` is the number of arguments that are not variable."""

    result: Type
    arguments: list[Argument]
    fixed: int
    variadic: bool
    target: str


def lower_call(function: Function, tokens: Tokens, target: str, _word: str) -> None:
    """`call`."""
    tokens.take_all(LINKAGE | FAST_MATH)
    tokens.skip_attributes()
    result = function.type(tokens)
    fixed = count_fixed(function, tokens) if tokens.peek() == "(" else None
    callee = tokens.take()
    if callee == "asm":
        lower_assembly(function, tokens, target, result)
        return
    callee = function.module.resolved(callee)
    if callee in TRAPS:
        function.end("unreachable")
        return
    if callee.startswith("@") and is_without_effect(callee[1:]):
        note_left_out(function, callee[1:])
        return
    pointer = ""
    if not callee.startswith("@"):
        tokens.place -= 1
        pointer = function.operand(tokens, "ptr")
    arguments = read_arguments(function, tokens)
    call = Call(result, arguments, len(arguments) if fixed is None else fixed, fixed is not None, target)
    if pointer:
        call_by_pointer(function, pointer, call)
    else:
        call_by_name(function, callee, call)


def count_fixed(function: Function, tokens: Tokens) -> int | None:
    """The number of parameters before `...` in the type of a function, which stands next; nothing if it has no `...`."""
    count, variadic = 0, None
    tokens.take("(")
    while tokens.peek() != ")":
        if tokens.take_if("..."):
            variadic = count
            break
        function.type(tokens)
        tokens.skip_attributes()
        count += 1
        tokens.take_if(",")
    tokens.take(")")
    return variadic


def read_arguments(function: Function, tokens: Tokens) -> list[Argument]:
    """The arguments in parentheses."""
    tokens.take("(")
    arguments = []
    while tokens.peek() != ")":
        type_ = function.type(tokens)
        known, copied = tokens.skip_attributes()
        copied_type = None if copied is None else function.type(copied)
        arguments.append(Argument(type_, read_operand(function, tokens, type_), known, copied_type))
        tokens.take_if(",")
    return arguments


def call_by_name(function: Function, callee: str, call: Call) -> None:
    """A call of a function by its name."""
    module, name = function.module, callee[1:].strip('"')
    if callee == "@main":
        raise Refused("a call of main", "main_called")
    if function.written_name == "@main" and name in ENDS and name not in module.own_names:
        module.start.end(function, name, call.arguments[0].values[0] if call.arguments else "1")
    elif callee == JUMP:
        lower_jump(function, call)
    elif name in SETJMP and name not in module.own_names:
        lower_setjmp(function, call)
    elif callee in module.signatures:
        put_call(function, callee, module.signatures[callee], call)
    elif name in EXTERNS:
        module.extern(name)
        put_call(function, callee, module.extern_signature(name), call)
    elif name.startswith("llvm."):
        lower_intrinsic(function, name, call)
    elif callee in module.weak:
        module.note("weak", NAME=name)
        call_by_pointer(function, "null", call)
    else:
        raise module.missing(callee)


def put_call(function: Function, callee: str, signature: Signature, call: Call) -> None:
    """The call of a function whose signature is known, with its result."""
    types = pieces(signature.result)
    slot = result_slot(function, types, call.target)
    text = call_text(function, callee, signature, call, slot, variable_block(function, call))
    put_text(function, call.target, text, types, callee)
    if slot and call.target:
        function.take_pieces(slot, types, function.results(call.target, signature.result))


def put_text(function: Function, target: str, text: str, types: tuple[str, ...], callee: str | CallType) -> None:
    """Writes a call, which assigns its result if that is one piece."""
    if len(types) == 1:
        function.assign(target, text)
    else:
        function.put(text)
    function.note_call(callee)


def result_slot(function: Function, types: tuple[str, ...], target: str) -> str:
    """The block that takes a result of several pieces; an empty text if the result is in a register."""
    if len(types) < 2:
        return ""
    slot = function.fresh(f"{target[1:]}.result" if target else "result")
    function.entry.append(f"{slot} = alloca {struct_of(types)}")
    return slot


def call_text(function: Function, callee: str, signature: Signature, call: Call, slot: str, variable: str) -> str:
    """The text of a call; refused if the type of the function is not that of the call."""
    if not fits(signature, call):
        raise Refused(f"a call of {callee} with another type than its own", "mismatch")
    given = fixed_arguments(call)[: len(signature.parameters)]
    if slot:
        given.insert(0, f"ptr {slot}")
    if signature.variadic:
        given.append(f"ptr {variable or no_arguments(function)}")
    return f'call {signature.returned} @{function.module.name_of(callee)}({", ".join(given)})'


def fixed_arguments(call: Call) -> list[str]:
    """The pieces of the arguments that are not variable, with their types."""
    return [
        f"{piece} {value}"
        for argument in call.arguments[: call.fixed]
        for piece, value in zip(pieces(argument.type), argument.values)
    ]


def fits(signature: Signature, call: Call) -> bool:
    """Whether the types of a call fit a function. A call without a prototype may give more arguments."""
    if call.result not in ("void", signature.result) and pieces(call.result) != pieces(signature.result):
        return False
    if signature.variadic and not call.variadic or signature.by_pointer and call.result == "void":
        return False
    given = argument_types(call)
    count = len(signature.parameters)
    if signature.variadic or not call.variadic or call.fixed < len(call.arguments):
        return given == list(zip(signature.parameters, signature.by_value))
    return given[:count] == list(zip(signature.parameters, signature.by_value))


def argument_types(call: Call) -> list[tuple[str, bool]]:
    """The types of the fixed arguments' pieces, and whether each is passed by value."""
    return [
        (piece, argument.copied is not None)
        for argument in call.arguments[: call.fixed]
        for piece in pieces(argument.type)
    ]


def call_by_pointer(function: Function, pointer: str, call: Call) -> None:
    """A call of the function that is added for the type of the call; external functions of hippo are called here."""
    dispatch = function.module.dispatch
    type_ = CallType(call.result, tuple(argument_types(call)), call.variadic)
    if not dispatch.candidates(type_) and pointer != "null":
        function.module.note("no_function", PLACE=function.place())
    types = pieces(call.result)
    slot, variable = result_slot(function, types, call.target), variable_block(function, call)
    text = dispatched(function, pointer, call, type_, slot, variable)
    if externs := dispatch.externs(type_):
        call_external(function, pointer, call, externs, (text, type_))
    else:
        put_text(function, call.target, text, types, type_)
    if slot and call.target:
        function.take_pieces(slot, types, function.results(call.target, call.result))


def dispatched(function: Function, pointer: str, call: Call, type_: CallType, slot: str, variable: str) -> str:
    """The text of the call of the function that is added for a type of call."""
    given = [f"ptr {pointer}", *([f"ptr {slot}"] if slot else []), *fixed_arguments(call)]
    if call.variadic:
        given.append(f"ptr {variable or no_arguments(function)}")
    return f'call {type_.returned} {function.module.dispatch.function(type_)}({", ".join(given)})'


def call_external(
    function: Function, pointer: str, call: Call, externs: list[tuple[str, int]], other: tuple[str, CallType]
) -> None:
    """A switch over the external functions that a pointer may name; any other value takes the call `other`."""
    module = function.module
    number = function.emit(f"ptrtoint ptr {pointer} to i64")
    labels = [function.fresh(f"{function.origin}.{callee[1:]}") for callee, _ in externs]
    rest, done = (function.fresh(f"{function.origin}.{word}") for word in ("other", "called"))
    cases = "".join(f"i64 {code}, label {label} " for (_, code), label in zip(externs, labels))
    function.put(f"switch i64 {number}, label {rest} [ {cases}]")
    chosen = [callee for callee, _ in externs]
    signatures = [(callee, module.signature_of(callee)) for callee in chosen]
    arms = [
        f'call {signature.returned} {callee}({", ".join(fixed_arguments(call)[:len(signature.parameters)])})'
        for callee, signature in signatures
    ]
    edges = []
    calls: list[tuple[str, str | CallType]] = [*zip(arms, chosen), other]
    for label, (text, callee) in zip([*labels, rest], calls):
        function.begin(label[1:])
        if call.target:
            edges.append((function.emit(text), label[1:]))
        else:
            function.put(text)
        function.note_call(callee)
        function.put(f"br label {done}")
    for callee in chosen:
        module.extern(callee[1:])
    function.go_on(done[1:])
    if edges:
        function.put_phi(f"{function.results(call.target, call.result)[0]} = phi {pieces(call.result)[0]}", edges)


INSTRUCTIONS: dict[str, Instruction] = {"call": lower_call}
