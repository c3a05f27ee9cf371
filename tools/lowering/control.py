"""The ends of blocks, and phis."""
from __future__ import annotations

from typing import TYPE_CHECKING

from .constants import read_scalar, refuse_expression
from .refusals import Refused
from .tokens import FAST_MATH, Tokens
from .traps import trap_in_call
from .types import pieces, show_type
from .values import read_early_operand, read_operand
from .writer import Instruction

if TYPE_CHECKING:
    from .function import Function


def phi(function: Function, tokens: Tokens, target: str, _word: str) -> None:
    """`phi`, piece by piece."""
    tokens.take_all(FAST_MATH)
    type_, edges = function.type(tokens), []
    while True:
        tokens.take("[")
        values = read_early_operand(function, tokens, type_)
        tokens.take(",")
        edges.append((values, function.register(tokens.take())[1:]))
        tokens.take("]")
        if not tokens.take_if(","):
            break
    for number, (register, piece) in enumerate(zip(function.results(target, type_), pieces(type_))):
        function.put_phi(f"{register} = phi {piece}", [(values[number], block) for values, block in edges])


def branch(function: Function, tokens: Tokens, _target: str, _word: str) -> None:
    """`br`."""
    if tokens.peek() == "label":
        function.put(f"br {function.label(tokens)}")
        return
    _, condition = function.argument(tokens)
    tokens.take(",")
    first = function.label(tokens)
    tokens.take(",")
    function.put(f"br i1 {condition[0]}, {first}, {function.label(tokens)}")


def switch(function: Function, tokens: Tokens, _target: str, _word: str) -> None:
    """`switch`."""
    type_, value = function.argument(tokens)
    if len(value) != 1 or type_ == "ptr":
        raise Refused(f"switch over {show_type(type_)}", "width")
    tokens.take(",")
    other, cases, held = function.label(tokens), [], pieces(type_)[0]
    tokens.take("[")
    while tokens.peek() != "]":
        function.integer(tokens)
        number = read_scalar(tokens, type_, function.module, refuse_expression)
        tokens.take(",")
        cases.append(f"{held} {number}, {function.label(tokens)} ")
    function.put(f'switch {held} {value[0]}, {other} [ {"".join(cases)}]')


def computed_goto(function: Function, tokens: Tokens, _target: str, _word: str) -> None:
    """`indirectbr`: a switch over the numbers of the labels."""
    tokens.take("ptr")
    address = function.operand(tokens, "ptr")
    number = function.emit(f"ptrtoint ptr {address} to i64")
    tokens.take(",")
    tokens.take("[")
    cases = []
    while tokens.peek() != "]":
        tokens.take("label")
        label = tokens.take()
        code = function.module.code.label_number(function.written_name, label)
        cases.append(f"i64 {code}, label {function.register(label)} ")
        tokens.take_if(",")
    trap = function.fresh(f"{function.origin}.no.label")
    function.put(f'switch i64 {number}, label {trap} [ {"".join(dict.fromkeys(cases))}]')
    function.begin(trap[1:])
    trap_in_call(function, "no.label")


def ret(function: Function, tokens: Tokens, _target: str, _word: str) -> None:
    """`ret`; a result of several pieces goes through the pointer that the caller gives."""
    if tokens.peek() == "void":
        function.put("ret void")
        return
    type_ = function.type(tokens)
    tokens.skip_attributes()
    values = read_operand(function, tokens, type_)
    if function.written_name == "@main":
        function.module.start.before_return(function)
    if not function.signature.by_pointer:
        function.put(f"ret {pieces(type_)[0]} {values[0]}" if values else "ret void")
        return
    function.put_pieces(function.result_slot, pieces(type_), values)
    function.put("ret void")


def unreachable(function: Function, _tokens: Tokens, _target: str, _word: str) -> None:
    """`unreachable`, a trap."""
    if function.is_at_label() and function.origin in map(function.names.get, function.defaults):
        trap_in_call(function, "no.case")
    else:
        function.put("unreachable")


def refuse_exception(_function: Function, _tokens: Tokens, _target: str, word: str) -> None:
    """Refuses calls that may throw, and handlers."""
    raise Refused(f"{word}: an exception", "exception")


INSTRUCTIONS: dict[str, Instruction] = {
    "phi": phi,
    "br": branch,
    "switch": switch,
    "indirectbr": computed_goto,
    "ret": ret,
    "unreachable": unreachable,
    **dict.fromkeys("invoke landingpad resume catchswitch catchpad cleanuppad callbr".split(), refuse_exception),
}
