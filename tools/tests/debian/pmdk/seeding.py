"""A text in which each seeded bug can be switched on: each call that a bug changes goes through a function that asks a global which bug is on."""
from __future__ import annotations

import re

from bugs import BUGS, CALL, FENCE, FLUSH, NOFLUSH, Bug

# The value of the global in the text: no bug is on.
NONE = 0x5EED_0F_B065_0FF
CHOSEN = "seeded_bug"
CALLED = re.compile(r"  (?P<target>%\S+ = )?call (?P<result>\w+) @(?P<callee>[-\w$.]+)\((?P<arguments>.*)\)", re.A)
PERSIST, DISPATCH, FLUSHING = "@obj_norep_persist(", "call.void.ptr.i64", "own.pmem_flush"


def seeded(text: str) -> tuple[str, dict[str, int]]:
    """The text with all bugs, none of which is on, and for each bug the number of the calls that it changes."""
    lines, wrappers, counts = text.split("\n"), dict[str, str](), dict.fromkeys((bug.name for bug in BUGS), 0)
    numbers, function = {bug.name: number for number, bug in enumerate(BUGS, 1)}, ""
    for index, line in enumerate(lines):
        if line.startswith("define "):
            function = line
        code, mark, comment = line.partition(" ; ")
        call = CALLED.fullmatch(code) if " call " in code else None
        bug = next((bug for bug in BUGS if call and is_changed(bug, call, comment, function)), None)
        if bug and call:
            counts[bug.name] += 1
            types = [part.split(" ")[0] for part in parts_of(call["arguments"])]
            name = f"seeded.{bug.away}.{call['callee']}"
            wrappers.setdefault(name, wrapper(name, bug.away, call, types))
            given = ", ".join([f"i64 {numbers[bug.name]}", *parts_of(call["arguments"])])
            lines[index] = f"  {call['target'] or ''}call {call['result']} @{name}({given}){mark}{comment}"
    first = next(index for index, line in enumerate(lines) if line.startswith("define "))
    lines[first:first] = [f"@{CHOSEN} = global i64 {NONE}", *wrappers.values()]
    return "\n".join(lines), counts


def with_bug(text: str, bug: Bug) -> str:
    """The seeded text with one bug on."""
    number = 1 + next(index for index, known in enumerate(BUGS) if known.name == bug.name)
    return text.replace(f"@{CHOSEN} = global i64 {NONE}", f"@{CHOSEN} = global i64 {number}", 1)


def is_changed(bug: Bug, call: re.Match[str], comment: str, function: str) -> bool:
    """Whether a bug changes a call, whose place is that of the statement in the bug's file, also where that was inlined."""
    if bug.away == FENCE:
        return PERSIST in function and call["callee"] == DISPATCH
    if f"/{bug.file}:{bug.line}:" not in comment.split(" < ")[-1]:
        return False
    return call["result"] in ("void", "i32") if bug.away == CALL else bool(re.search(r"i32 \S+$", call["arguments"]))


def parts_of(arguments: str) -> list[str]:
    """The arguments of a call, some of which have commas in parentheses."""
    found, depth, begin = [], 0, 0
    for index, letter in enumerate(arguments):
        depth += (letter in "([{") - (letter in ")]}")
        if letter == "," and not depth:
            found.append(arguments[begin:index].strip())
            begin = index + 1
    return [*found, last] if (last := arguments[begin:].strip()) else found


def wrapper(name: str, away: str, call: re.Match[str], types: list[str]) -> str:
    """The function through which a call goes: if its first argument is the number of the bug that is on, it does what the bug leaves."""
    head = ", ".join(["i64 %number", *(f"{type_} %a{index}" for index, type_ in enumerate(types))])
    given = [f"{type_} %a{index}" for index, type_ in enumerate(types)]
    result = call["result"]
    kept, value = ("", "ret void") if result == "void" else ("%value = ", f"ret {result} %value")
    lines = [f"define {result} @{name}({head}) {{", "entry:", f"  %chosen = load i64, ptr @{CHOSEN}"]
    lines.append("  %is = icmp eq i64 %chosen, %number")
    if away == FLUSH:
        lines += [f"  %more = select i1 %is, i32 {NOFLUSH}, i32 0", f"  %flags = or i32 %a{len(types) - 1}, %more"]
        given[-1] = "i32 %flags"
        return "\n".join([*lines, f"  {kept}call {result} @{call['callee']}({', '.join(given)})", f"  {value}", "}"])
    left = [f"  call void @{FLUSHING}({', '.join(given[1:])})"] if away == FENCE else []
    nothing = "ret void" if result == "void" else f"ret {result} 0"
    lines += ["  br i1 %is, label %without, label %with", "with:"]
    lines += [f"  {kept}call {result} @{call['callee']}({', '.join(given)})", f"  {value}"]
    return "\n".join([*lines, "without:", *left, f"  {nothing}", "}"])
