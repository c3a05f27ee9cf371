"""Inline assembly: flushes and fences in their usual spellings, and instructions without an effect in hippo."""
from __future__ import annotations

import re
from typing import TYPE_CHECKING

from .counter import read_counter
from .refusals import Refused
from .requests import lower_request
from .tokens import Tokens
from .types import Type, is_aggregate

if TYPE_CHECKING:
    from .function import Function

# `.byte 0x66` before an instruction of the same code makes `clflushopt` of `clflush`, and `clwb` of `xsaveopt`.
FLUSHES = {
    "clwb": "llvm.x86.clwb",
    ".byte 0x66; xsaveopt": "llvm.x86.clwb",
    "clflushopt": "llvm.x86.clflushopt",
    ".byte 0x66; clflush": "llvm.x86.clflushopt",
    "clflush": "llvm.x86.sse2.clflush",
}
FENCES = {"sfence": "llvm.x86.sse.sfence", "mfence": "llvm.x86.sse2.mfence"}
WITHOUT_EFFECT = {"", "nop", "pause", "rep; nop", "rep nop", "lfence"}
# A request to Valgrind: outside of Valgrind these instructions change nothing, and the result is the default, a tied operand.
REQUEST = re.compile(
    r"rolq \$\$3, ?%rdi; rolq \$\$13, ?%rdi; rolq \$\$61, ?%rdi; rolq \$\$51, ?%rdi; xchgq %rbx, ?%rbx"
)
# What `cpuid` answers: the four registers by leaf. An Intel processor with CLFLUSH, SSE and SSE2, CLFLUSHOPT and CLWB.
CPUID = {
    0: (7, 0x756E6547, 0x6C65746E, 0x49656E69),
    1: (0x50657, 0, 0, 1 << 19 | 1 << 25 | 1 << 26),
    7: (0, 1 << 23 | 1 << 24, 0, 0),
}
# Readings of the counter of time, alone or with what keeps other instructions from passing them.
COUNTER = re.compile(r"(?:(?:lfence|mfence); )?rdtscp?(?:; lfence)?")
OPERAND = re.compile(r" (?P<open>\(?)\$\{?(?P<number>\d+)(?::(?P<form>[a-zA-Z]))?\}?\)?$")
# The forms in which an operand is the address itself: one in memory, one in a register, and one in a register between parentheses.
# In others it is another address, such as `${0:H}`, which is 8 bytes further.
FORMS = {("", True): (None, "P"), ("", False): ("a",), ("(", False): (None, "q")}


def lower_assembly(function: Function, tokens: Tokens, target: str, result: Type) -> None:
    """An `asm` call, after that word."""
    while tokens.kind() == "word":
        tokens.take()
    written = tokens.take()[1:-1]
    tokens.take(",")
    constraints = tokens.take()[1:-1].split(",")
    text = plain(written)
    operand = OPERAND.search(text)
    word = text[: operand.start()] if operand else text
    if word in FLUSHES and operand and is_address(constraints, operand):
        address = operands(function, tokens)[place_of(constraints, int(operand["number"]))]
        call(function, FLUSHES[word], f"ptr {address}")
    elif text in FENCES:
        call(function, FENCES[text], "")
    elif REQUEST.fullmatch(text) and target:
        function.module.note("valgrind")
        function.module.has_requests = True
        if function.module.marks_requests:
            lower_request(function, tokens, target, constraints)
        else:
            tied_values(function, tokens, target, constraints)
    elif COUNTER.fullmatch(text) and target:
        time_counter(function, target, result, constraints)
    elif "cpuid" in text.split("; ") and target:
        processor(function, tokens, target, constraints)
    elif not text and target:
        tied_values(function, tokens, target, constraints)
    elif text in WITHOUT_EFFECT and not target:
        if text:
            function.module.note("assembly", TEXT=text)
        else:
            function.module.note("empty_assembly")
    else:
        raise Refused(f"inline assembly {written!r}", "assembly")


def time_counter(function: Function, target: str, result: Type, constraints: list[str]) -> None:
    """`rdtsc` and `rdtscp`: the two halves in EAX and EDX, the whole number in both together, and the processor's number in ECX."""
    registers = [constraint for constraint in constraints if constraint.startswith("=")]
    types = result[1] if is_aggregate(result) else ()
    if registers not in (["={ax}", "={dx}"], ["={ax}", "={dx}", "={cx}"]) or not set(types) <= {"i32", "i64"}:
        raise Refused(f'a reading of the counter with results in {", ".join(registers)}', "assembly")
    whole = read_counter(function)
    halves = [function.emit(f"and i64 {whole}, 4294967295"), function.emit(f"lshr i64 {whole}, 32"), "0"]
    values = [
        function.emit(f"trunc i64 {half} to i32") if type_ == "i32" else half for half, type_ in zip(halves, types)
    ]
    function.become(target, result, values)


def is_address(constraints: list[str], operand: re.Match[str]) -> bool:
    """Whether the instruction has the address that the operand is."""
    constraint = constraints[int(operand["number"])]
    in_memory = "*" in constraint
    return (in_memory or not constraint.startswith("=")) and operand["form"] in FORMS.get(
        (operand["open"], in_memory), ()
    )


def processor(function: Function, tokens: Tokens, target: str, constraints: list[str]) -> None:
    """`cpuid`: the registers by the leaf, which is the first operand; zeros for any other leaf."""
    if constraints[:4:2] != ["={ax}", "={cx}"] or constraints[1] not in ("={bx}", "=r") or constraints[3] != "={dx}":
        raise Refused("cpuid with results in other registers than EAX, EBX, ECX and EDX, in this order", "assembly")
    function.module.note("processor")
    tokens.take("(")
    leaf = function.argument(tokens)[1][0]
    is_leaf = {number: function.emit(f"icmp eq i32 {leaf}, {number}") for number in CPUID}
    values = []
    for register in range(4):
        value = "0"
        for number, registers in CPUID.items():
            if registers[register]:
                value = function.emit(f"select i1 {is_leaf[number]}, i32 {registers[register]}, i32 {value}")
        values.append(value)
    function.become(target, ("struct", ("i32",) * 4), values)


def tied_values(function: Function, tokens: Tokens, target: str, constraints: list[str]) -> None:
    """The results of an empty statement, by which programs hide a value from clang: the operands in the same registers."""
    tokens.take("(")
    given = []
    while tokens.peek() != ")":
        given.append(function.argument(tokens))
        tokens.take_if(",")
    count = sum(constraint.startswith("=") and "*" not in constraint for constraint in constraints)
    operands_of = [constraint for constraint in constraints[count:] if not constraint.startswith("~")]
    tied = [
        argument
        for number in range(count)
        for constraint, argument in zip(operands_of, given)
        if constraint == str(number)
    ]
    if len(tied) != count:
        raise Refused("inline assembly whose result is no operand", "assembly")
    values = [value for _, pieces in tied for value in pieces]
    function.become(target, tied[0][0] if count == 1 else ("struct", tuple(type_ for type_, _ in tied)), values)


def plain(written: str) -> str:
    """The text of an instruction in lower case, except for the form of an operand, with single blanks."""
    text = re.sub(r"\\0[AaDd9]", ";", written).replace("\t", " ")
    text = re.sub(r"\$\{.*?\}|[A-Z]", lambda found: found[0] if found[0].startswith("$") else found[0].lower(), text)
    text = re.sub(r"\s*;[\s;]*", "; ", text)
    return re.sub(r"\s+", " ", text).strip("; ").replace("( $", "($")


def operands(function: Function, tokens: Tokens) -> list[str]:
    """The pointers that are the operands."""
    tokens.take("(")
    found = []
    while tokens.peek() != ")":
        type_ = function.type(tokens)
        tokens.skip_attributes()
        if type_ != "ptr":
            raise Refused("inline assembly with an operand that is no address", "assembly")
        found.append(function.operand(tokens, "ptr"))
        tokens.take_if(",")
    return found


def place_of(constraints: list[str], number: int) -> int:
    """The index of an operand's argument: each constraint has one, except direct results and clobbers."""
    before = [constraint for constraint in constraints[:number] if not constraint.startswith("~")]
    return sum(not constraint.startswith("=") or "*" in constraint for constraint in before)


def call(function: Function, name: str, arguments: str) -> None:
    """A call of an external function of hippo."""
    function.module.extern(name)
    function.put(f"call void @{name}({arguments})")
