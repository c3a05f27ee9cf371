"""Where a run traps: the instruction and the calls above it, as a marked copy of the program shows them."""
import re
from dataclasses import dataclass

from lowering.externs import TAKE_ADDRESSES
from lowering.refusals import ADVICE

from .marking import marked_run, marked_text
from .program import Instruction, Program, Site

ACCESSES = ("load ", "store ")
WORDS = {
    "divzero": {"udiv", "sdiv", "urem", "srem"},
    "divoverflow": {"sdiv", "srem"},
    "shift": {"shl", "lshr", "ashr"},
    "stack": {"alloca"},
    "unreachable": {"unreachable"},
}
MEANING = {
    "divzero": "a division by zero",
    "divoverflow": "a quotient that does not fit",
    "shift": "a shift by the width of the number or more",
    "address": "an access outside the memory of the program",
    "misaligned": "an access at less than its alignment",
    "stack": "the stack has more than 16 MiB",
    "depth": "calls are nested more than 16,384 deep",
    "input": "no number of the input is left",
    "unreachable": "__builtin_trap, abort or a failed assert was reached",
}
# What `address` means in calls.
ADDRESS_OF_CALLS = {"pm_assert": "a pm_assert of memory that is not persistent"}
# What `unreachable` means in functions that tools/lower adds.
ADDED = re.compile(r"no\.(?P<what>function|label|case|frame)(?:\.\d+)?")
MEANING_OF_ADDED = {
    "function": "a call by pointer to no function of the call's type",
    "label": "a goto to an address that is no label of the function",
    "case": "a switch over a value that the program says it never has",
    "frame": "a longjmp to a function that has returned",
}


@dataclass
class Trap:
    """The kind of a trap, the path of sites to it (the instruction, then the calls outwards), and the external function that trapped.
    Of a function that has no form, its name, the kind of the refusal and the reason."""

    kind: str
    path: tuple[Site, ...]
    callee: str = ""
    unsupported: tuple[str, str, str] | None = None


def meaning_of(kind: str, trap: Trap | None) -> str:
    """What a trap of a kind means at its instruction, if this is known."""
    if trap and trap.unsupported:
        name, refused, reason = trap.unsupported
        why = "which is not in the program" if refused == "missing" else f"which has no form here: {reason}"
        return f"a call of '{name}', {why}"
    if kind == "unreachable" and trap:
        if added := ADDED.fullmatch(trap.path[0][0]):
            return MEANING_OF_ADDED[added["what"]]
    if kind == "address" and trap and trap.callee in ADDRESS_OF_CALLS:
        return ADDRESS_OF_CALLS[trap.callee]
    return MEANING.get(kind, kind)


def advice_of(trap: Trap | None) -> str:
    """What the user can do about a function that has no form; nothing for another trap."""
    return ADVICE[trap.unsupported[1]] if trap and trap.unsupported else ""


def may_trap(instruction: Instruction, kind: str, program: Program) -> bool:
    """Whether an instruction can trap in this way."""
    text = instruction.text
    if kind in ("address", "misaligned"):
        word = text.partition(" = ")[2] or text
        return word.startswith(ACCESSES) or instruction.callee in TAKE_ADDRESSES
    if kind == "depth":
        return instruction.callee in program.functions
    if kind == "input":
        return instruction.callee == "read_i64"
    word = (text.partition(" = ")[2] or text).split(" ", 1)[0]
    return word in WORDS.get(kind, ())


def find_trap(program: Program, numbers: list[int], kind: str) -> Trap | None:
    """The path to the trap that ends the run on these numbers, or nothing if the marked copies end in another way."""
    calls = standing_calls(program, numbers, kind)
    if calls is None:
        return None
    if kind == "depth":
        return Trap(kind, tuple(reversed(calls)))
    top = program.at(calls[-1]).callee if calls else "main"
    site = last_candidate(program, numbers, kind, top)
    if not site:
        return None
    refusal = program.functions[site[0]].refusal
    unsupported = (program.functions[calls[-1][0]].name_in_c, refusal["kind"], refusal["reason"]) if refusal else None
    return Trap(kind, (site, *reversed(calls)), program.at(site).callee, unsupported)


def standing_calls(program: Program, numbers: list[int], kind: str) -> list[Site] | None:
    """The calls that have not returned when the run ends."""
    sites = [site for site, instruction in program.sites() if instruction.callee in program.functions]
    by_site = {site: ([str(number)], ["-1"]) for number, site in enumerate(sites)}
    text = marked_text(program, lambda site, _: by_site.get(site, ([], [])))
    standing: list[int] = []
    with marked_run(text, numbers) as run:
        push, pop = standing.append, standing.pop
        for mark in run.marks():
            if mark >= 0:
                push(mark)
            else:
                pop()
        ended = run.ended()
    return [sites[number] for number in standing] if ended.word("trap") == kind else None


def last_candidate(program: Program, numbers: list[int], kind: str, function: str) -> Site | None:
    """The last instruction of a function that the run executes, among those that can trap in this way."""
    sites = [
        site for site, instruction in program.sites() if site[0] == function and may_trap(instruction, kind, program)
    ]
    by_site: dict[Site, tuple[list[str], list[str]]] = {site: ([str(number)], []) for number, site in enumerate(sites)}
    text = marked_text(program, lambda site, _: by_site.get(site, ([], [])))
    last = b""
    with marked_run(text, numbers) as run:
        for chunk in run.chunks():
            last = next((mark for mark in reversed(chunk) if mark), last)
        ended = run.ended()
    return sites[int(last)] if last and ended.word("trap") == kind else None
