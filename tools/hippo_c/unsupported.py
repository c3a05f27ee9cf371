"""What a command says of functions that have no form and trap when they are called, and of text output that it leaves out."""
from __future__ import annotations

import re
from typing import TYPE_CHECKING

from .letters import shown
from .program import Function, Program

if TYPE_CHECKING:
    from .session import Session

# How a run ends that calls such a function, in the place of hippo's own word.
UNSUPPORTED = "unsupported"
MOST_NAMES = 6
# What functions use, by the kind of the refusal; a kind without a row has its reasons.
USES = {
    "float": "long double",
    "vector": "vectors",
    "width": "wide integers",
    "atomic": "atomic accesses",
    "thread": "thread-local data",
    "fence": "fences between threads",
    "assembly": "inline assembly",
    "nontemporal": "non-temporal accesses",
    "array": "arrays of variable length",
    "exception": "exceptions",
    "stream": "streams",
    "threads": "threads",
    "files": "file systems",
}
BY_OPTION = re.compile(r"the function @(?P<name>.*): give (?P<option>.*)")
OUTPUT = re.compile(r"^lower: note: (.*): as --ignore-output or --print-numbers allows$", re.M)


def unsupported_in(program: Program) -> list[str]:
    """A line for each kind of functions that trap when they are called."""
    found: dict[str, list[str]] = {}
    for function in program.functions.values():
        refusal = refusal_of(program, function)
        if refusal is None:
            continue
        kind, reason = refusal["kind"], refusal["reason"]
        name = shown(function.name_in_c)
        if option := BY_OPTION.fullmatch(reason):
            found.setdefault(f"need {option['option']}", []).append(name)
        elif kind == "missing":
            found.setdefault("are not in the program", []).append(name)
        else:
            found.setdefault(
                f"use {USES[kind]}" if kind in USES else f"have no form here ({shown(reason)})", []
            ).append(name)
    return [line_of(what, names) for what, names in found.items()]


def refusal_of(program: Program, function: Function) -> re.Match[str] | None:
    """Why a function traps when it is called: the kind and the reason; nothing for a function that does not."""
    first = function.blocks[0].instructions[0] if function.blocks else None
    callee = program.functions.get(first.callee) if first else None
    return callee.refusal if callee else None


def line_of(what: str, names: list[str]) -> str:
    """The line of functions with one reason."""
    given = ", ".join(names[:MOST_NAMES]) + (", .." if len(names) > MOST_NAMES else "")
    if len(names) > 1:
        return f"{len(names):,} functions {what} and trap if the run calls them ({given})"
    verb, _, rest = what.partition(" ")
    single = {"are": "is", "have": "has"}.get(verb, f"{verb}s")
    return f"1 function {single} {rest} and traps if the run calls it ({given})"


def output_note(session: Session) -> str:
    """Which functions of text output write nothing, where no option says so; nothing if there are none."""
    found = OUTPUT.search(session.lower_notes)
    if session.request.is_strict or session.request.says_output() or not found:
        return ""
    return f"text output is left out ({shown(found[1])}); --print-numbers prints its integers"
