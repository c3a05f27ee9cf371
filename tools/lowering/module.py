"""A module: its globals, its functions, and what is added to them."""
from __future__ import annotations

import re
from typing import TYPE_CHECKING, Callable

from .blocks import helper_for
from .code import Code
from .dispatch import Dispatch
from .externs import EXTERNS, LIBPMEM, declaration
from .front_end import Program, global_places
from .function import Function, Signature
from .globals import ALIAS, UNDEFINED, global_text
from .jumps import Jumps
from .lines import LineTables, marked_added
from .names import clean_name, function_name, global_name
from .notes import note_text
from .places import Places
from .refusals import Refusals, Refused
from .runtime import reason_for
from .start import Start
from .types import Type
from .unsupported import Unsupported
from .users import Users, refuse_global

if TYPE_CHECKING:
    from .options import Options

IGNORED = re.compile(
    r"[;!$]|source_filename|target |attributes |uselistorder"
    r'|module asm "\.(?:symver [^;\\"]*|globl _ZSt21ios_base_library_initv)"$'
)
# Attributes of globals that `#pragma clang section` puts into a section.
BY_PRAGMA = re.compile(r'attributes (#\d+) = .*?"(?:bss|data|rodata|relro)-section"="([^"]+)"')


class Module:
    """Reads the text of a module, and writes its text in the subset."""

    def __init__(self, program: Program, options: Options, marks_requests: bool = False) -> None:
        self.marks_requests, self.request_count, self.has_requests = marks_requests, 0, False
        self.options, self.own_names, self.gated_names = options, program.own_names, program.gated_names
        self.public_names = set(program.public_names)
        self.named_types: dict[str, Type] = {}
        self.names: dict[str, str] = {}
        self.taken = dict.fromkeys(EXTERNS, 1)
        self.global_names: set[str] = set()
        self.function_names: set[str] = set()
        self.same_names: dict[str, str] = {}
        self.weak: set[str] = set()
        self.declared: dict[str, str] = {}
        self.externs: list[str] = []
        self.persistent: list[tuple[str, int]] = []
        self.sections_by_pragma: dict[str, str] = {}
        self.helpers: dict[str, tuple[str, str]] = {}
        self.notes: set[str] = set()
        self.in_runtime, self.has_padded_blocks, self.no_arguments = False, False, ""
        self.refusals = Refusals()
        self.global_places: dict[str, str] | None = None
        self.places = Places(program.text)
        self.line_tables = LineTables(self.places) if options.lines else None
        self.start, self.code, self.dispatch, self.jumps = Start(self), Code(self), Dispatch(self), Jumps(self)
        self.unsupported = Unsupported(self)
        globals_, functions = self.items(program.text)
        functions += self.stubs({function_name(head) for head, _ in functions})
        self.take_names(globals_, functions)
        self.note_assumed(program)
        self.code.take([*globals_, *(line for _, body in functions for line in body)])
        found = [Function(self, head, body) for head, body in functions]
        self.found_users: Users | None = None
        self.users: Callable[[], Users] = lambda: self.users_of(globals_, found)
        self.signatures: dict[str, Signature] = {function.written_name: function.signature for function in found}
        self.globals = [self.lower_global(line) for line in globals_]
        self.functions = self.lowered(found)

    def lowered(self, functions: list[Function]) -> list[str]:
        """The texts of all functions; notes what is missing in a program."""
        for function in functions:
            self.lower_function(function)
        self.in_runtime = False
        if not self.persistent and "@main" in self.signatures:
            self.note("nothing_persistent")
        self.jumps.find(functions)
        return self.unsupported.used([function.text() for function in functions])

    def items(self, text: str) -> tuple[list[str], list[tuple[str, list[str]]]]:
        """The lines of globals, and heads and bodies of functions."""
        globals_: list[str] = []
        functions: list[tuple[str, list[str]]] = []
        body: list[str] | None = None
        for line in text.split("\n"):
            stripped = line.strip()
            if body is not None:
                if stripped == "}":
                    body = None
                elif stripped and not stripped.startswith((";", "#dbg")):
                    body.append(stripped)
            elif found := BY_PRAGMA.match(stripped):
                self.sections_by_pragma[found[1]] = found[2]
            elif not stripped or IGNORED.match(stripped):
                continue
            elif stripped.startswith("declare"):
                if " extern_weak " in stripped:
                    self.weak.add(function_name(stripped))
                else:
                    self.declared[function_name(stripped)] = stripped
            elif stripped.startswith("define"):
                body = []
                functions.append((stripped, body))
            elif named := re.match(r'(%(?:"[^"]*"|[-A-Za-z$._0-9]+)) = type (.*)', stripped):
                self.named_types[named[1]] = named[2]
            elif stripped.startswith("@"):
                self.keep_global(globals_, stripped)
            elif stripped.startswith("module asm"):
                self.refusals.add(Refused("inline assembly outside of functions", "assembly"), "", stripped[:110])
            else:
                self.refusals.add(Refused(f"unknown item: {stripped[:90]}"))
        return globals_, functions

    def stubs(self, defined: set[str]) -> list[tuple[str, list[str]]]:
        """The heads of functions that trap for what no file defines, without bodies."""
        return [(head, []) for head in self.unsupported.stub_heads(self.declared, defined)]

    def keep_global(self, globals_: list[str], line: str) -> None:
        """Notes a line of a global, by its kind."""
        name = global_name(line)
        if name in ("@llvm.global_ctors", "@llvm.global_dtors"):
            self.start.read_list(line)
        elif found := ALIAS.match(line):
            self.same_names[name] = found[3] if found[2] == "alias" and found[3] else ""
        elif found := UNDEFINED.match(line):
            if found[2] == "extern_weak":
                self.weak.add(name)
        elif not name.startswith("@llvm."):
            globals_.append(line)

    def take_names(self, globals_: list[str], functions: list[tuple[str, list[str]]]) -> None:
        """Gives each global and each function its name in the subset."""
        for line in globals_:
            self.global_names.add(self.take_name(global_name(line)))
        for head, _ in functions:
            self.function_names.add(self.take_name(function_name(head)))

    def take_name(self, written: str) -> str:
        """Gives a name; names from the runtime get the prefix `hippo.`."""
        name = written[1:].strip('"')
        if name in EXTERNS and name in self.public_names and name not in LIBPMEM:
            self.refusals.add(
                Refused(f"{written} is an external function of hippo: declare it, and define it elsewhere", "known")
            )
            self.names[written] = name
            return written
        if not self.is_own(written):
            name = f"hippo.{name}"
        elif name in EXTERNS:
            name = f"own.{name}"
        self.names[written] = clean_name(name, self.taken, "g")
        return written

    def is_own(self, written: str) -> bool:
        """Whether a name is that of a file of the command line, and not of the runtime."""
        return written[1:].strip('"') in self.own_names

    def note_assumed(self, program: Program) -> None:
        """Notes which calls and which accesses needed an option."""
        by_assumption: dict[tuple[str, str], list[str]] = {}
        for name, assumption in sorted(program.assumed_names.items()):
            if f"@{name}" in self.names:
                by_assumption.setdefault(assumption, []).append(name)
        for (kind, option), names in by_assumption.items():
            self.note(kind, NAMES=", ".join(names), OPTION=option)
        if program.has_atomics:
            self.note("atomics")
        self.take_facts(program)

    def take_facts(self, program: Program) -> None:
        """Refuses persistent globals that are made at each start, and notes throws and destructors."""
        if program.facts.throws:
            self.note("throw")
        for name in sorted(program.facts.made):
            self.refusals.add(
                Refused(
                    f"the persistent global @{name} is initialised at each start of the program, so the data of the last run would be lost",
                    "initialiser",
                ),
                self.place_of_global(name),
            )
        for name in program.facts.destroyed - program.facts.made:
            self.note("destroyed", NAME=name)

    def place_of_global(self, name: str) -> str:
        """The place of a global in the source."""
        if self.global_places is None:
            self.global_places = global_places(self.options)
        return self.global_places.get(name, "")

    def note(self, kind: str, **parts: str) -> None:
        """A note for standard error; what the runtime contains gets none."""
        if not self.in_runtime:
            self.notes.add(note_text(kind, parts))

    def users_of(self, globals_: list[str], functions: list[Function]) -> Users:
        """Who names what; found when something is refused."""
        if self.found_users is None:
            self.found_users = Users(self, globals_, functions)
        return self.found_users

    # Queries of functions.

    def resolved(self, written: str) -> str:
        """The name that an alias refers to."""
        seen = set()
        while self.same_names.get(written) and written not in seen:
            seen.add(written)
            written = self.same_names[written]
        return written

    def constant_address(self, written: str) -> str:
        """The address of a global or a function, as a constant."""
        written = self.resolved(written)
        if written in self.global_names:
            return "@" + self.names[written]
        if written == "@main":
            raise Refused("the address of main", "main_called")
        if written in self.code.functions:
            return self.code.address(written)
        if written in self.weak:
            self.note("weak", NAME=written[1:])
            return "null"
        if written in self.same_names:
            raise Refused(f"{written} is an alias of an expression, or is chosen when the program is loaded")
        raise self.missing(written)

    def missing(self, written: str) -> Refused:
        """Why there is no function or variable of a name."""
        name = written[1:].strip('"')
        if found := reason_for(name, self.gated_names):
            return found
        kind = "function" if written in self.declared else "variable"
        return Refused(f"the {kind} {written} is not in the program", "missing")

    def signature_of(self, written: str) -> Signature:
        """How a function of the program, or one that hippo knows, is called."""
        return self.signatures.get(written) or self.extern_signature(written[1:])

    @staticmethod
    def extern_signature(name: str) -> Signature:
        """How an external function of hippo is called."""
        row = EXTERNS[name]
        return Signature(row.result, row.parameters, (False,) * len(row.parameters), False)

    def name_of(self, written: str) -> str:
        """The name of a function in the subset."""
        return self.names.get(written, written[1:])

    def copy_helper(self, least: int, count: int) -> str:
        """The function that copies a number of bytes between addresses of an alignment."""
        return helper_for(self, "memcpy", min(least, 8), count)

    def helper(self, name: str, make: Callable[[str], str]) -> str:
        """The name of a function that is added; `make` writes it under that name at its first use."""
        if name not in self.helpers:
            real = "@" + clean_name(name, self.taken, "g")
            self.helpers[name] = (real, make(real))
        return self.helpers[name][0]

    def extern(self, name: str) -> None:
        """Notes that an external function of hippo is called."""
        if name not in self.externs:
            self.externs.append(name)

    # The text.

    def lower_global(self, line: str) -> str:
        """A global in the subset, or nothing if it is refused."""
        try:
            return global_text(self, self.places.without_metadata(line)[0])
        except Refused as refusal:
            refuse_global(self, refusal, line)
            return ""

    def lower_function(self, function: Function) -> None:
        """Lowers a function."""
        self.in_runtime = not self.is_own(function.written_name)
        if function.written_name in self.unsupported.stubs:
            function.refuse(self.missing(function.written_name))
        function.lower()
        if function.written_name == "@main":
            self.start.call_constructors(function)

    def text(self) -> str:
        """The program in the subset."""
        added = [text for _, text in self.helpers.values()]
        if self.line_tables:
            added = [marked_added(text, self.unsupported.reasons.get(name, "")) for name, text in self.helpers.values()]
        parts = [*self.globals, *self.start.globals, *map(declaration, self.externs), *self.functions, *added]
        return "\n".join(parts) + "\n"
