"""Constants as operands: the texts of their pieces."""
from __future__ import annotations

import re
import struct
from typing import TYPE_CHECKING, Callable

from .layout import natural
from .refusals import Refused
from .tokens import Tokens
from .types import FLOATS, INTEGERS, Type, as_integer, as_scalar, bits, element, pieces, read_type, show_type, size

if TYPE_CHECKING:
    from .module import Module

BINARY = "add sub mul udiv sdiv urem srem and or xor shl lshr ashr".split()
CASTS = "zext sext trunc ptrtoint inttoptr".split()
# These make a value undefined in LLVM and change nothing in hippo, so they are left out.
FLAGS = set("nuw nsw exact disjoint nneg samesign inbounds nusw inrange".split())
ESCAPED = re.compile(rb"\\(\\|[0-9A-Fa-f]{2})")

# Writes an instruction, and returns its register.
Emit = Callable[[str], str]


def read_pieces(tokens: Tokens, type_: Type, module: Module, emit: Emit) -> list[str]:
    """The pieces of the constant that stands next, under its type."""
    if tokens.peek() in ("undef", "poison", "zeroinitializer"):
        note_undefined(tokens.take(), module)
        return [zero_of(piece) for piece in pieces(type_)]
    if isinstance(type_, str):
        if bits(as_integer(type_)) <= 64:
            return [read_scalar(tokens, type_, module, emit)]
        return limbs(read_number(tokens, type_), bits(as_integer(type_)))
    if type_[0] == "vector":
        return read_elements(tokens, type_, module, emit)
    opening = tokens.take()
    if opening == "<":
        opening = tokens.take("{")
    if opening not in ("{", "["):
        raise Refused(f"the constant {opening!r} of {show_type(type_)} is not in the subset", "constant")
    found: list[str] = []
    while tokens.peek() not in ("}", "]"):
        found += read_pieces(tokens, read_type(tokens, module.named_types), module, emit)
        tokens.take_if(",")
    tokens.take()
    tokens.take_if(">")
    return found


def read_elements(tokens: Tokens, type_: Type, module: Module, emit: Emit) -> list[str]:
    """The pieces of the vector that stands next."""
    if tokens.take_if("splat"):
        tokens.take("(")
        element = read_pieces(tokens, read_type(tokens, module.named_types), module, emit)
        tokens.take(")")
        return element * int(type_[1])
    found = []
    tokens.take("<")
    while not tokens.take_if(">"):
        found += read_pieces(tokens, read_type(tokens, module.named_types), module, emit)
        tokens.take_if(",")
    return found


def note_undefined(word: str, module: Module) -> None:
    """Notes that an undefined value of the program's own becomes zero."""
    if word != "zeroinitializer":
        module.note("undefined", WORD=word)


def zero_of(type_: Type) -> str:
    """The zero of a type of the subset."""
    if isinstance(type_, tuple):
        return "zeroinitializer"
    return {"ptr": "null", "i1": "false"}.get(type_, "0")


def read_number(tokens: Tokens, type_: str) -> int:
    """The integer that stands next, or the bits of the floating-point number."""
    if type_ in FLOATS and tokens.kind() == "float":
        return bits_of_float(tokens.take(), type_)
    if tokens.kind() != "number":
        raise Refused(f"the constant {tokens.peek()!r} of {type_} is not in the subset", "constant")
    return int(tokens.take())


def bits_of_float(text: str, type_: str) -> int:
    """The bits of a floating-point constant. LLVM writes a float as a double, in decimal or by its bits, and other types by their bits
    after a letter."""
    if text[2:3].isalpha() and text[2] in "HRKL":
        number = int(text[3:], 16)
        return number >> 64 | (number & (1 << 64) - 1) << 64 if text[2] == "L" else number
    wide: int = int(text, 16) if text.startswith("0x") else struct.unpack("<Q", struct.pack("<d", float(text)))[0]
    if type_ != "float":
        return wide
    if wide >> 52 & 2047 == 2047:
        return wide >> 32 & 1 << 31 | 255 << 23 | wide >> 29 & (1 << 23) - 1
    narrow: int = struct.unpack("<I", struct.pack("<f", struct.unpack("<d", struct.pack("<Q", wide))[0]))[0]
    return narrow


def limbs(number: int, width: int) -> list[str]:
    """An integer of more than 64 bits in pieces of 64, the lowest first."""
    number &= (1 << width) - 1
    return [str(with_sign(number >> place & 0xFFFFFFFFFFFFFFFF)) for place in range(0, width, 64)]


def with_sign(number: int, width: int = 64) -> int:
    """A number of a width, read with a sign."""
    return number - (1 << width) if number >> (width - 1) else number


def read_scalar(tokens: Tokens, type_: Type, module: Module, emit: Emit) -> str:
    """The constant of one piece that stands next; an expression that the subset does not have becomes an instruction."""
    if tokens.peek() in ("undef", "poison", "zeroinitializer", "null"):
        note_undefined("zeroinitializer" if tokens.peek() == "null" else tokens.peek(), module)
        tokens.take()
        return zero_of(pieces(type_)[0])
    type_ = as_scalar(type_)
    if type_ in FLOATS:
        return str(with_sign(read_number(tokens, type_), bits(as_integer(type_))))
    kind, text = tokens.kind(), tokens.take()
    if text in ("true", "false"):
        return text
    if kind == "number":
        return text if type_ in INTEGERS else str(int(text) & (1 << bits(type_)) - 1)
    if text.startswith("@"):
        return module.constant_address(text)
    if text == "getelementptr":
        return read_element_address(tokens, module)
    if text in ("blockaddress", "dso_local_equivalent", "no_cfi"):
        return read_code_address(tokens, text, module)
    return read_expression(tokens, text, module, emit)


def read_code_address(tokens: Tokens, word: str, module: Module) -> str:
    """The address of a function in another form, or of a label, after its word."""
    if word != "blockaddress":
        return module.constant_address(tokens.take())
    tokens.take("(")
    function = tokens.take()
    tokens.take(",")
    label = tokens.take()
    tokens.take(")")
    return module.code.label_address(function, label)


def element_address(type_: Type, base: str, indices: list[tuple[Type, str]]) -> str:
    """A constant `getelementptr`; by bytes if the subset has no type with the same layout."""
    same = natural(type_)
    if same is not None:
        inside = ", ".join(f"{show_type(index)} {value}" for index, value in indices)
        return f"getelementptr ({show_type(same)}, ptr {base}, {inside})"
    offset = int(indices[0][1]) * size(type_)
    for _, value in indices[1:]:
        begin, type_ = element(type_, int(value))
        offset += begin
    return f"getelementptr (i8, ptr {base}, i64 {offset})"


def read_element_address(tokens: Tokens, module: Module) -> str:
    """A constant `getelementptr`, after its word."""
    tokens.take_all(FLAGS)
    if tokens.peek() == "(" and tokens.peek(1).lstrip("-").isdigit() and tokens.peek(2) == ",":
        tokens.skip_parentheses()
    tokens.take("(")
    type_ = read_type(tokens, module.named_types)
    tokens.take(",")
    tokens.take("ptr")
    base = read_scalar(tokens, "ptr", module, refuse_expression)
    indices = []
    while tokens.take_if(","):
        index = read_type(tokens, module.named_types)
        indices.append((index, read_scalar(tokens, index, module, refuse_expression)))
    tokens.take(")")
    return element_address(type_, base, indices)


def read_expression(tokens: Tokens, word: str, module: Module, emit: Emit) -> str:
    """A constant expression, after its word, as an instruction; the register that it is in."""
    if word in CASTS:
        tokens.take("(")
        source = read_type(tokens, module.named_types)
        value = read_scalar(tokens, source, module, emit)
        tokens.take("to")
        target = read_type(tokens, module.named_types)
        tokens.take(")")
        require_integers(source, target)
        return emit(f"{word} {source} {value} to {target}")
    if word in BINARY:
        tokens.take_all(FLAGS)
        tokens.take("(")
        type_ = read_type(tokens, module.named_types)
        require_integers(type_)
        first = read_scalar(tokens, type_, module, emit)
        tokens.take(",")
        read_type(tokens, module.named_types)
        second = read_scalar(tokens, type_, module, emit)
        tokens.take(")")
        return emit(f"{word} {type_} {first}, {second}")
    raise Refused(f"the constant {word!r} is not in the subset", "constant")


def require_integers(*types: Type) -> None:
    """Refuses an expression over types that the subset does not have."""
    for type_ in types:
        if type_ not in INTEGERS and type_ != "ptr":
            raise Refused(f"a constant expression of {show_type(type_)}", "constant")


def refuse_expression(instruction: str) -> str:
    """Refuses a constant expression at a place where no instruction can stand."""
    raise Refused(f"the constant expression {instruction.split()[0]!r} stands where the subset has none", "constant")


def byte_list(text: str) -> str:
    """`c"..."` as a list of i8."""
    return "[" + ", ".join(f"i8 {byte - 256 if byte > 127 else byte}" for byte in bytes_of(text)) + "]"


def bytes_of(text: str) -> bytes:
    """The bytes of `c"..."`."""
    return ESCAPED.sub(
        lambda match: b"\\" if match[1] == b"\\" else bytes([int(match[1], 16)]), text[2:-1].encode("latin-1")
    )
