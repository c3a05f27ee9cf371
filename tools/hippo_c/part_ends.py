"""How a part of a program starts and ends in a build: its constructors run before `main`, and what it registers runs after it."""
from __future__ import annotations

import re
from typing import TYPE_CHECKING

from .trouble import Trouble

if TYPE_CHECKING:
    from .program import Program

LIST = re.compile(r"^@llvm\.global_(ctors|dtors) = [^\n]*? \[(\{.*\})\]", re.M)
ENTRY = re.compile(r'\{ i32 (\d+), ptr @("[^"]*"|[-\w$.]+), ptr [^}]*\}', re.ASCII)
REGISTER, CALL = "hippo.atexit", "hippo.hippo_call_handler"
OF_THREAD = "hippo.__cxa_thread_atexit"
# The system calls each handler in its turn, among those that other files register.
REGISTERED = f"""define internal i32 @{REGISTER}(ptr %handler) {{
entry:
  %result = call i32 @__cxa_atexit(ptr @{CALL}, ptr %handler, ptr null)
  ret i32 %result
}}
declare i32 @__cxa_atexit(ptr, ptr, ptr)"""
VIRTUAL = re.compile(r"%vtable\d* = load ptr|@_ZTV(?!St|NSt|N10__cxxabi)")
EXPORTED_TABLE = re.compile(r'^@("[^"]*"|[-\w$.]+) = (?:dso_local )?global [^\n]*@_ZTV', re.M | re.ASCII)
# Variables of which each file of C++ that uses them has one, and the linker keeps one for all.
SHARED = re.compile(
    r'^@("[^"]*"|[-\w$.]+) = (?:\w+ )*?(?:linkonce_odr|weak_odr|weak) (?:\w+ )*?global ', re.M | re.ASCII
)


class Ends:
    """The constructors and destructors of the files of a part, by clang's text of each file."""

    def __init__(self, program: Program, texts: list[str]) -> None:
        self.lists: dict[str, list[tuple[int, str]]] = {"ctors": [], "dtors": []}
        for text in texts:
            for kind, entries in LIST.findall(text):
                for priority, name in ENTRY.findall(entries):
                    name = name.strip('"')
                    if clash := next(
                        (other for other in program.functions if re.fullmatch(rf"{re.escape(name)}\.\d+", other)), ""
                    ):
                        raise Trouble(
                            f"two files have a constructor or destructor of the name '{name}', here '{clash}'",
                            "give the functions, or the files, other names",
                        )
                    if name in program.functions:
                        self.lists[kind].append((int(priority), name))

    @property
    def names(self) -> list[str]:
        """The functions that no call of the part names."""
        return [name for entries in self.lists.values() for _, name in entries]

    def lines(self, kept: set[str]) -> list[str]:
        """The lines that register them, and what replaces the runtime's list of handlers."""
        if OF_THREAD in kept:
            raise Trouble(
                "a thread_local object of the part has a destructor, which no thread of the build would call",
                "give the object no destructor, or repair the whole program",
            )
        lines = []
        for kind, entries in self.lists.items():
            if entries:
                shown = ", ".join(
                    f"{{ i32, ptr, ptr }} {{ i32 {priority}, ptr @{name}, ptr null }}" for priority, name in entries
                )
                lines.append(f"@llvm.global_{kind} = appending global [{len(entries)} x {{ i32, ptr, ptr }}] [{shown}]")
        return lines + ([REGISTERED] if REGISTER in kept else [])


def refuse_tables(part: dict[str, str], others: dict[str, str]) -> None:
    """Refuses a part whose tables of virtual functions other files may use: in the part they have numbers, and not addresses."""
    advice = "name each file that makes such objects or calls their functions by --for"
    for file, text in part.items():
        if found := EXPORTED_TABLE.search(text):
            raise Trouble(
                f"{file}: other files can call virtual functions of '{found[1]}', and those of the part have no addresses",
                advice,
            )
        if VIRTUAL.search(text):
            if other := next((name for name, text in others.items() if VIRTUAL.search(text)), ""):
                raise Trouble(
                    f"{file} and {other} both have virtual functions, and those of the part have no addresses", advice
                )


def shared_variables(texts: list[str]) -> set[str]:
    """The variables of the part that the linker joins with those of other files."""
    return {name.strip('"') for text in texts for name in SHARED.findall(text)}
