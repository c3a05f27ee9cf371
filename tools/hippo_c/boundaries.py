"""Checks at the boundaries of an API: a `pm_assert` at each return of the named functions, or before each call of them.

The asserts go into the lowered text, so that hippo itself checks there; the C stays as it is."""
from __future__ import annotations

import argparse
import difflib
import re
from dataclasses import dataclass

from lowering.lines import ADDED
from lowering.refusals import ADVICE

from . import commits
from .program import CALLED, HEAD, REGION_BASE, Function, Global, Program, Site
from .trouble import Trouble
from .unsupported import refusal_of

DECLARATION = "declare void @pm_assert(ptr, i64)"
RETURN, CALL = "--check-return", "--check-call"
WORD = re.compile(r"(?:(?P<file>[^:=]+):)?(?P<name>[^:=]+)(?:=(?P<object>[^:=]+))?")


@dataclass(frozen=True)
class Boundary:
    """Functions whose returns or calls are checks: a regular expression for their names in C, a file, and the global that must be durable.

    Without a global it is the whole region. The file is that of the function whose return is meant, or of the function that calls.
    """

    option: str
    word: str
    name: re.Pattern[str]
    file: str
    object: str

    @property
    def given(self) -> str:
        """The words that ask for it."""
        return f"{self.option}={self.word}"

    def fits(self, name: str, function: Function) -> bool:
        """Whether a name in C and the function in which the check would stand are meant."""
        if not self.name.fullmatch(name):
            return False
        file = function.place.file if function.place else ""
        return not self.file or f"/{file}".endswith(f"/{self.file}")


@dataclass(frozen=True)
class Check:
    """A check that was put into a text: of which boundary it is, and the name of the function in C."""

    boundary: Boundary
    function: str

    @property
    def where(self) -> str:
        """The check in a diagnostic."""
        if self.boundary.option == commits.OPTION:
            return f"before the commit point '{self.function}'"
        return (
            f"when '{self.function}' returns" if self.boundary.option == RETURN else f"at the call of '{self.function}'"
        )


def add_options(command: argparse.ArgumentParser) -> None:
    """The options for boundaries."""
    command.add_argument(
        RETURN,
        action="append",
        default=[],
        metavar="[FILE:]FUNCTION[=GLOBAL],..",
        help="all persistent memory, or the global, must be durable when these functions return",
    )
    command.add_argument(
        CALL,
        action="append",
        default=[],
        metavar="[FILE:]FUNCTION[=GLOBAL],..",
        help="the same before each call of these functions",
    )
    command.add_argument(
        commits.OPTION,
        action="append",
        default=[],
        metavar="FILE:LINE|FUNCTION|GLOBAL,..",
        help="all that was stored so far must be durable before the stores of this line, before the function begins, "
        "or before the stores to the global",
    )


def boundaries_of(options: argparse.Namespace) -> list[Boundary]:
    """The boundaries that the words ask for."""
    words = [(RETURN, word) for given in options.check_return for word in given.split(",")]
    words += [(CALL, word) for given in options.check_call for word in given.split(",")]
    points = [
        Boundary(commits.OPTION, word, re.compile(re.escape(word)), "", "")
        for given in options.commit
        for word in given.split(",")
    ]
    return [boundary_of(option, word) for option, word in words] + points


def boundary_of(option: str, word: str) -> Boundary:
    """A boundary from its word."""
    found = WORD.fullmatch(word)
    if not found:
        raise Trouble(
            f"{option} '{word}': not of the form [FILE:]FUNCTION[=GLOBAL]",
            "FUNCTION is a regular expression without , : and =",
        )
    try:
        name = re.compile(found["name"], re.ASCII)
    except re.error as error:
        raise Trouble(f"{option} '{word}': not a regular expression: {error}") from None
    return Boundary(option, word, name, found["file"] or "", found["object"] or "")


class Placing:
    """Puts the checks of boundaries into a lowered text."""

    def __init__(self, text: str, boundaries: list[Boundary]) -> None:
        self.text, self.program = text, Program(text)
        self.ranges = {boundary: ranges_of(self.program, boundary) for boundary in boundaries}
        self.points: dict[Site, list[Boundary]] = {}
        for boundary in boundaries:
            for site in commits.sites_of(self.program, boundary.word) if boundary.option == commits.OPTION else []:
                self.points.setdefault(site, []).append(boundary)
        self.checks: dict[Site, Check] = {}
        self.lines: list[str] = []

    def placed(self) -> str:
        """The text with the checks, whose sites are then in `checks`."""
        function = None
        for line in self.text.split("\n"):
            written, _, comment = line.partition(" ; ")
            if head := HEAD.match(written):
                function, label, index, added = self.program.functions[head[1]], "", 0, 0
            elif function is not None and written and not written.startswith((" ", "}")):
                label, index, added = written[:-1], 0, 0
            elif function is not None and written.startswith(" ") and " = phi " not in written:
                site = (function.name, label, index - added)
                is_jump = comment == ADDED and not function.added
                for check in [*self.points_at(site), *self.checks_at(function, written.strip(), is_jump)]:
                    before, index = index, self.put(check, (function.name, label, index), comment)
                    added += index - before
                index += 1
            self.lines.append(line)
        self.refuse_idle()
        if not any(line.startswith("declare void @pm_assert(") for line in self.program.head):
            self.lines.insert(0, DECLARATION)
        return "\n".join(self.lines)

    def points_at(self, site: Site) -> list[Check]:
        """The checks of commit points before an instruction."""
        return [Check(boundary, boundary.word) for boundary in self.points.get(site, ())]

    def checks_at(self, function: Function, instruction: str, is_jump: bool) -> list[Check]:
        """The checks before an instruction. A return that tools/lower added is a jump or `exit`, which leaves the function without a return."""
        if instruction.startswith("ret "):
            if is_jump:
                return []
            name, option = function.name_in_c, RETURN
        elif called := CALLED.match(instruction):
            callee = self.program.functions.get(called[1])
            name, option = callee.name_in_c if callee else called[1], CALL
        else:
            return []
        return [
            Check(boundary, name)
            for boundary in self.ranges
            if boundary.option == option and boundary.fits(name, function)
        ]

    def put(self, check: Check, site: Site, comment: str) -> int:
        """Puts a check before an instruction, once for each range; the index of the instruction after it."""
        name, label, index = site
        for item, size in self.ranges[check.boundary]:
            self.checks[(name, label, index)] = check
            self.lines.append(f"  call void @pm_assert(ptr @{item}, i64 {size})" + (f" ; {comment}" if comment else ""))
            index += 1
        return index

    def refuse_idle(self) -> None:
        """Refuses a boundary that fits nothing."""
        placed = {check.boundary for check in self.checks.values()}
        for boundary in self.ranges:
            if boundary not in placed:
                self.refuse_unsupported(boundary)
                what = {RETURN: "function", CALL: "call"}.get(boundary.option, "store or function")
                raise Trouble(
                    f"{boundary.option} '{boundary.word}': no {what} in the program fits",
                    hint_for(self.program, boundary),
                )

    def refuse_unsupported(self, boundary: Boundary) -> None:
        """Refuses a boundary of a function that traps when it is called, so that no check of it could ever run."""
        for function in self.program.functions.values():
            refusal = refusal_of(self.program, function)
            if refusal and boundary.option == RETURN and boundary.fits(function.name_in_c, function):
                why = f"'{function.name_in_c}' never returns, since it has no form here: {refusal['reason']}"
                raise Trouble(f"{boundary.option} '{boundary.word}': {why}", ADVICE[refusal["kind"]])


def hint_for(program: Program, boundary: Boundary) -> str:
    """What may be meant by a boundary that fits nothing."""
    names = names_for(program, boundary)
    if boundary.option == commits.OPTION:
        if commits.LINE.fullmatch(boundary.word):
            return "no instruction that stores or calls has this line"
        names |= {name_in_c(item) for item in program.persistent}
    if boundary.file and any(map(boundary.name.fullmatch, names)):
        return f"{boundary.file} is the end of no path of a file in which it would stand"
    near = difflib.get_close_matches(
        boundary.word if boundary.option == commits.OPTION else boundary.name.pattern, sorted(names), 3
    )
    return f'is {" or ".join(near)} meant?' if near else "functions that main never reaches are not in the program"


def names_for(program: Program, boundary: Boundary) -> set[str]:
    """The names that a boundary could mean."""
    defined = {function.name_in_c for function in program.functions.values() if not function.added}
    if boundary.option == RETURN:
        return defined
    return defined | {
        instruction.callee
        for _, instruction in program.sites()
        if instruction.callee and instruction.callee not in program.functions
    }


def ranges_of(program: Program, boundary: Boundary) -> list[tuple[str, int]]:
    """What a boundary checks: the name of a global at the start of each range, and its size in bytes."""
    if not program.persistent:
        raise Trouble(
            f"{boundary.option} '{boundary.word}': no global is persistent",
            "put PERSISTENT before the definitions of those that must be",
        )
    if not boundary.object:
        first = next(item for item in program.persistent if item.address == REGION_BASE)
        return [(first.name, program.region_size())]
    found = [item for item in program.persistent if boundary.object in (item.name, name_in_c(item))]
    if not found:
        raise Trouble(
            f"{boundary.option} '{boundary.word}': no persistent global has the name {boundary.object}",
            f'there are {", ".join(sorted(map(name_in_c, program.persistent))[:5])}',
        )
    return [(item.name, item.size) for item in found]


def name_in_c(item: Global) -> str:
    """The name of a global in C: the linker numbers static ones of equal names."""
    return re.sub(r"\.\d+$", "", item.name)
