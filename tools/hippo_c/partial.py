"""The part of a repaired program that comes from some C files, for the build of a library without its driver."""
import re
from dataclasses import dataclass


from .clang import emit_text
from .part_ends import CALL, REGISTER, Ends, refuse_tables, shared_variables
from .plan import Repair
from .program import GLOBAL, Function, type_text
from .running import tool
from .session import Session
from .trouble import Trouble

DEFINED = re.compile(
    r'^define ([^@]*)@("[^"]*"|[-\w$.]+)\(|^@("[^"]*"|[-\w$.]+) = ([^=]*?)(?:global|constant) ', re.M | re.ASCII
)
HIDDEN = re.compile(r"\b(internal|private|external|available_externally|linkonce\w*)\b")
INTERNAL = re.compile(r"@([-\w$.]+) = internal global ", re.ASCII)
USED = re.compile(r"@([-\w$.]+)", re.ASCII)


@dataclass
class Part:
    """The lines before the functions, and the functions with their heads."""

    head: list[str]
    functions: list[tuple[Function, str]]


def clang_text(session: Session, file: str) -> str:
    """The text that clang makes of a file, without optimisation."""
    command = emit_text(session.names.include, session.request.clang_of(file), file, "-fno-discard-value-names")
    ran = tool(command)
    if ran.returncode:
        raise Trouble(f'{file}: clang-19 does not compile it at -O0:\n{ran.stderr.decode("utf-8", "replace").rstrip()}')
    return ran.stdout.decode("latin-1")


def visible_names(text: str) -> set[str]:
    """The names that a file defines for the linker."""
    found = set()
    for before, function, variable, kind in DEFINED.findall(text):
        if not HIDDEN.search(before + kind):
            found.add((function or variable).strip('"'))
    return found


def part_for(session: Session, repair: Repair, files: list[str]) -> Part:
    """The functions of these files, and all that they need that no other file defines."""
    given = session.request.sources()
    if session.request.objects.changed:
        raise Trouble(session.request.objects.changed[0], "--for divides the program by its sources")
    if strange := [file for file in files if file not in given]:
        raise Trouble(f"{strange[0]}: not one of the files of the program", "name it as it is named before --for")
    texts = {file: clang_text(session, file) for file in given}
    part = {file: text for file, text in texts.items() if file in files}
    refuse_tables(part, {file: text for file, text in texts.items() if file not in files})
    own = set().union(*map(visible_names, part.values()))
    others = set().union(*(visible_names(text) for file, text in texts.items() if file not in files)) - own
    repaired = repair.repaired
    ends = Ends(repaired, list(part.values()))
    kept = closure(repair, [*(name for name in repaired.functions if name in own), *ends.names], others)
    if REGISTER in kept:
        kept = closure(repair, [*kept, CALL], others)
    registered = ends.lines(kept)
    kept.discard(REGISTER)
    shared = shared_variables(list(part.values())) - own - others
    functions = [(function, shown_head(function, own)) for name, function in repaired.functions.items() if name in kept]
    used = set().union(*(names_in(function) for function, _ in functions)) | own
    head = [line for line in map(lambda text: head_line(text, own, others, used), repaired.head) if line]
    head = [joined(line, shared) for line in head] + registered
    head += [declaration(repaired.functions[name]) for name in sorted(used & others & set(repaired.functions))]
    return Part(head, functions)


def names_in(function: Function) -> set[str]:
    """The names of globals and functions that a function uses."""
    lines = [
        line
        for block in function.blocks
        for line in (*block.phis, *(instruction.text for instruction in block.instructions))
    ]
    return {name for line in lines for name in USED.findall(line)}


def closure(repair: Repair, roots: list[str], others: set[str]) -> set[str]:
    """The functions that calls reach, up to those that other files define."""
    kept, waiting = set(roots), list(roots)
    while waiting:
        for name in names_in(repair.repaired.functions[waiting.pop()]) - kept - others:
            if name in repair.repaired.functions:
                kept.add(name)
                waiting.append(name)
    return kept


def shown_head(function: Function, own: set[str]) -> str:
    """The head of a function, which is internal if the files do not define it for the linker."""
    return function.head if function.name in own else function.head.replace("define ", "define internal ", 1)


def head_line(line: str, own: set[str], others: set[str], used: set[str]) -> str:
    """A line before the functions as the part has it; an empty text if the part does not use it."""
    found = GLOBAL.match(line)
    if not found:
        return line
    name = found[1]
    if name in others:
        text = type_text(line, found.end())
        return f"@{name} = external {found[2]} {text.strip()}" if name in used else ""
    if name in own:
        return line
    return line.replace(f"@{name} = ", f"@{name} = internal ", 1) if name in used else ""


def joined(line: str, shared: set[str]) -> str:
    """The line of a global; one that other files of C++ may have too is for the linker to join."""
    found = INTERNAL.match(line)
    return line.replace(" = internal ", " = linkonce_odr ", 1) if found and found[1] in shared else line


def declaration(function: Function) -> str:
    """The declaration of a function that another file defines."""
    head = re.sub(r" %[-\w$.]+(?=[,)])", "", function.head[len("define ") :].removesuffix(" {"))
    return f"declare {head}"
