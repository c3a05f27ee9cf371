"""Single instructions of a program with the hooks of tools/explore, which it calls at each step that hippo sees.

Globals are replaced by their addresses, and functions get a prefix, so that no name of the program meets one of the engine or of the C
library."""
from __future__ import annotations

import re

from lowering.externs import FENCES, LINE_FLUSHES
from lowering.tokens import Tokens
from lowering.types import alignment, read_type, size

from . import words
from .entries import operands
from .program import Program

HOOK = "hippo_hook_"
NAME = re.compile(r"@([-\w$.]+)", re.ASCII)
FLAG = re.compile(r" (?:nuw|nsw|exact|inbounds)(?= )")
LOAD = re.compile(r"(%\S+) = load (\S+), (.*)$")
ALLOCA = re.compile(r"(%\S+) = alloca (.*)$")
CALCULATION = re.compile(r"\S+ = (udiv|sdiv|urem|srem|shl|lshr|ashr) (i\d+) (.*)$")
CALL = re.compile(r"(?:(%\S+) = )?call (\S+) @([-\w$.]+)\((.*)\)$", re.ASCII)
COMPARED = re.compile(r"(?<![\w%@.$-])-?\d+(?![\w.])")
ASSUME = "hippo_assume"


def last_name(name: str) -> str:
    """The name of a function in C: what tools/lower adds before a name of the runtime is left out."""
    return name.rpartition(".")[2] if name.startswith("hippo.") else name


class Hooked:
    """Makes the lines of one instruction after another. `number` is that of the instruction in the text, which is its site; `inside` is the
    function that it stands in.

    `constants` are the numbers that the program compares with, and `class_of` has the number of the place in C for each site that reads a
    number."""

    def __init__(self, program: Program) -> None:
        self.program = program
        self.addresses = {item.name: item.address for item in program.globals}
        self.number, self.inside, self.fresh = 0, "", 0
        self.place: object = 0
        self.constants: set[int] = set()
        self.classes: dict[object, int] = {}
        self.class_of: dict[int, int] = {}

    def lines(self, text: str, place: object) -> list[str]:
        """The lines of the next instruction, whose place in C is given, without its flags, which could make a result undefined."""
        self.place = place
        found = self.instruction(FLAG.sub("", text))
        self.number += 1
        return found

    def instruction(self, text: str) -> list[str]:
        """The lines for an instruction without flags."""
        if text.startswith("store "):
            return self.store(text)
        if found := LOAD.match(text):
            return self.load(*found.groups())
        if found := ALLOCA.match(text):
            type_ = read_type(Tokens(operands(found[2])[0]), {})
            return [
                f"{found[1]} = call ptr @{HOOK}alloca(i64 {size(type_)}, i64 {alignment(type_)}, i32 {self.number})"
            ]
        if found := CALCULATION.match(text):
            return [*self.test_of(*found.groups()), self.renamed(text)]
        if found := CALL.match(text):
            return self.call(*found.groups())
        if text == "unreachable":
            what = "assumed" if last_name(self.inside) == ASSUME else "unreachable"
            return [f"call void @{HOOK}{what}(i32 {self.number})", text]
        if " = icmp " in text or text.startswith("switch "):
            self.constants.update(
                number for number in map(int, COMPARED.findall(text)) if -(2**63) <= number < 2**63
            )
        return [self.renamed(text)]

    def store(self, text: str) -> list[str]:
        """A store after its hook."""
        value, pointer, *rest = operands(text)
        _, type_, value = value.split(" ", 2)
        wide, lines = self.widened(type_, value)
        bytes_, align = access(type_, rest)
        hook = (
            f"call void @{HOOK}store({self.renamed(pointer)}, i64 {wide}, i32 {bytes_}, i32 {align}, i32 {self.number})"
        )
        return [*lines, hook, f"store {type_} {self.renamed(value)}, {self.renamed(pointer)}, align {align}"]

    def load(self, register: str, type_: str, rest: str) -> list[str]:
        """A load after its hook; an i1 is the lowest bit of its byte."""
        pointer, *more = operands(rest)
        bytes_, align = access(type_, more)
        hook = f"call void @{HOOK}load({self.renamed(pointer)}, i32 {bytes_}, i32 {align}, i32 {self.number})"
        if type_ != "i1":
            return [hook, f"{register} = load {type_}, {self.renamed(pointer)}, align {align}"]
        byte = self.new_register()
        return [hook, f"{byte} = load i8, {self.renamed(pointer)}", f"{register} = trunc i8 {byte} to i1"]

    def test_of(self, operation: str, type_: str, rest: str) -> list[str]:
        """The test of a division or a shift, unless a constant makes the trap impossible."""
        first, second = operands(rest)
        bits = int(type_[1:])
        constant = int(second) if re.fullmatch(r"-?\d+", second) else None
        if operation in ("shl", "lshr", "ashr"):
            if constant is not None and 0 <= constant < bits:
                return []
            wide, lines = self.widened(type_, second)
            return [*lines, f"call void @{HOOK}shift(i64 {wide}, i64 {bits}, i32 {self.number})"]
        if constant not in (None, 0, -1, 2**bits - 1):
            return []
        if operation in ("udiv", "urem"):
            wide, lines = self.widened(type_, second)
            return [*lines, f"call void @{HOOK}divide(i64 {wide}, i32 {self.number})"]
        dividend, lines = self.widened(type_, first, "sext")
        divisor, more = self.widened(type_, second, "sext")
        least = -(2 ** (bits - 1))
        return [
            *lines,
            *more,
            f"call void @{HOOK}divide_signed(i64 {dividend}, i64 {divisor}, i64 {least}, i32 {self.number})",
        ]

    def call(self, register: str | None, result: str, callee: str, arguments: str) -> list[str]:
        """A call of a defined function between its hooks, or the hook in place of an external one."""
        arguments, site = self.renamed(arguments), f"i32 {self.number}"
        into = f"{register} = " if register else ""
        if callee in self.program.functions:
            return [f"call void @{HOOK}call({site})", f"{into}call {result} @p.{callee}({arguments})"]
        if callee in LINE_FLUSHES:
            return [f"call void @{HOOK}flush({arguments}, i64 1, {site})"]
        if callee in FENCES and callee != "pmem_persist":
            return [f"call void @{HOOK}fence({site})"]
        if callee == "read_i64":
            if last_name(self.inside) not in words.READERS:
                self.class_of[self.number] = self.classes.setdefault(self.place, len(self.classes) + 1)
            return [f"{into}call i64 @{HOOK}read({site})"]
        hook = {"pmem_flush": "flush", "pmem_persist": "persist", "pm_assert": "assert", "print_i64": "print"}[callee]
        return [f"call void @{HOOK}{hook}({arguments}, {site})"]

    # ---- operands

    def renamed(self, text: str) -> str:
        """A text with addresses in place of globals, and with the names of functions that the instrumented text has."""

        def name(found: re.Match[str]) -> str:
            if found[1] in self.addresses:
                return f"inttoptr (i64 {self.addresses[found[1]]} to ptr)"
            return f"@p.{found[1]}"

        return NAME.sub(name, text) if "@" in text else text

    def new_register(self) -> str:
        """A register that the program does not have."""
        self.fresh += 1
        return f"%{HOOK}{self.fresh}"

    def widened(self, type_: str, value: str, how: str = "zext") -> tuple[str, list[str]]:
        """An operand as one of 64 bits, and the line that makes it."""
        if type_ == "i64":
            return value, []
        register = self.new_register()
        word = "ptrtoint" if type_ == "ptr" else how
        return register, [f"{register} = {word} {type_} {self.renamed(value)} to i64"]


def access(type_: str, rest: list[str]) -> tuple[int, int]:
    """The size of an access and its alignment: the smaller one of the type's and the written one."""
    read = read_type(Tokens(type_), {})
    written = int(rest[0].split(" ")[1]) if rest else size(read)
    return size(read), min(alignment(read), written)
