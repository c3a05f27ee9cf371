"""Values of registers: each consists of pieces, and some registers have the pieces of others."""
from __future__ import annotations

import re
from typing import TYPE_CHECKING

from .constants import read_pieces, zero_of
from .refusals import Refused
from .tokens import Tokens
from .types import Type, element, pieces, show_type

if TYPE_CHECKING:
    from .function import Function

# Instructions whose value consists of pieces of other values, and calls that return their first operand.
SAME = re.compile(
    r"""(%(?:"[^"]*"|[-A-Za-z$._0-9]+))\ =\ (freeze|bitcast(?!\ <)(?!.*\ to\ <)|insertvalue|extractvalue|
    insertelement|extractelement|shufflevector|
    (?:(?:tail|notail)\ )?call\ [^@]*@llvm\.(?:expect|ssa\.copy|threadlocal\.address|launder\.invariant|
    strip\.invariant|stacksave)\b[^(]*)""",
    re.X,
)


def read_operand(function: Function, tokens: Tokens, type_: Type) -> list[str]:
    """The pieces of the operand that stands next, under its type."""
    if tokens.peek().startswith("%"):
        return value_of(function, tokens.take(), type_)
    return read_pieces(tokens, type_, function.module, function.emit)


def read_early_operand(function: Function, tokens: Tokens, type_: Type) -> list[str]:
    """The same, with constant expressions computed in the entry block, for a value that is used elsewhere."""
    if tokens.peek().startswith("%"):
        return value_of(function, tokens.take(), type_)
    return read_pieces(tokens, type_, function.module, function.emit_at_entry)


def value_of(function: Function, written: str, type_: Type) -> list[str]:
    """The pieces of a register."""
    if written in function.values:
        return function.values[written]
    same = function.same_values.get(written)
    if same is None:
        value = function.results(written, type_)
    else:
        # In code that no path reaches, values may be defined by one another.
        function.values[written] = [zero_of(piece) for piece in pieces(type_)]
        value = value_made(function, Tokens(same))
    function.values[written] = value
    return value


def value_made(function: Function, tokens: Tokens) -> list[str]:
    """The pieces of the value that an instruction takes from others, from the tokens after its `=`."""
    word = tokens.take()
    if word == "bitcast":
        return value_of_bits(function, tokens)
    if word == "freeze":
        type_ = function.type(tokens)
        return read_early_operand(function, tokens, type_)
    if word in ("insertelement", "extractelement", "shufflevector"):
        return value_of_vector(function, tokens, word)
    if word not in ("insertvalue", "extractvalue"):
        return value_of_call(function, tokens)
    type_ = function.type(tokens)
    found = list(read_early_operand(function, tokens, type_))
    inserted = None
    if word == "insertvalue":
        tokens.take(",")
        inner = function.type(tokens)
        inserted = read_early_operand(function, tokens, inner)
    first, inner = 0, type_
    while tokens.take_if(","):
        index = int(tokens.take())
        first += sum(len(pieces(element(inner, before)[1])) for before in range(index))
        inner = element(inner, index)[1]
    count = len(pieces(inner))
    if inserted is None:
        return found[first : first + count]
    return found[:first] + inserted + found[first + count :]


def value_of_vector(function: Function, tokens: Tokens, word: str) -> list[str]:
    """The pieces of a vector, or of one element, that an instruction chooses by constants."""
    type_ = function.type(tokens)
    found = list(read_early_operand(function, tokens, type_))
    each = len(pieces(type_[2]))
    tokens.take(",")
    inner = function.type(tokens)
    if word == "shufflevector":
        found += read_early_operand(function, tokens, inner)
        tokens.take(",")
        chosen = read_pieces(tokens, function.type(tokens), function.module, function.emit_at_entry)
        return [piece for index in chosen for piece in found[int(index) * each : int(index) * each + each]]
    inserted = None
    if word == "insertelement":
        inserted = read_early_operand(function, tokens, inner)
        tokens.take(",")
        function.type(tokens)
    if tokens.kind() != "number":
        raise Refused(f"{word} at an index that is not constant", "vector")
    first = int(tokens.take()) * each
    return found[first : first + each] if inserted is None else found[:first] + inserted + found[first + each :]


def value_of_bits(function: Function, tokens: Tokens) -> list[str]:
    """The operand of a `bitcast` between types with the same pieces."""
    type_ = function.type(tokens)
    found = read_early_operand(function, tokens, type_)
    tokens.take("to")
    result = function.type(tokens)
    if pieces(type_) != pieces(result):
        raise Refused(f"bitcast of {show_type(type_)} to {show_type(result)}")
    return found


def value_of_call(function: Function, tokens: Tokens) -> list[str]:
    """The first operand of a call, after its first word."""
    if tokens.peek() == "call":
        tokens.take()
    while not tokens.peek().startswith("@"):
        tokens.take()
    name = tokens.take()
    tokens.take("(")
    if name.startswith("@llvm.stacksave"):
        return ["null"]
    type_ = function.type(tokens)
    tokens.skip_attributes()
    return read_early_operand(function, tokens, type_)


def collect_same_values(function: Function) -> None:
    """Notes which registers have pieces of others, before any line is lowered."""
    for line, _ in function.lines:
        if found := SAME.match(line):
            function.same_values[found[1]] = line[found.start(2) :]
