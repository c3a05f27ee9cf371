"""`setjmp`, `longjmp`, and `exit` below `main`, without jumps out of calls.

A jump notes its target in globals, and returns. After each call that may have jumped, a test of these globals goes on to the return
of the function, until the function whose `setjmp` is the target goes on there. So a jump becomes branches and returns. `exit` is a jump
whose target is the end of `main`. Each run of a function that calls `setjmp` has a number of its own, so a jump to one that has returned
finds no target, and traps at the end of `main`."""
from __future__ import annotations

from typing import TYPE_CHECKING

from .dispatch import CallType
from .traps import trap_in_call
from .writer import CallLine, Phi

if TYPE_CHECKING:
    from .calls import Call
    from .function import Function
    from .module import Module

SETJMP = ("setjmp", "_setjmp", "sigsetjmp", "__sigsetjmp")
# The runtime calls this function with a target and a value, and the lowering stores them.
JUMP = "@hippo_jump"
# The targets of `exit`, and of `_exit`, `_Exit` and `quick_exit`, which run no destructors. Those of setjmp are positive.
EXIT, EXIT_AT_ONCE = -1, -2
FRAME, SITE, VALUE, COUNT = ("hippo.jump.frame", "hippo.jump.site", "hippo.jump.value", "hippo.jump.count")
TYPES = {FRAME: "i64", SITE: "i64", VALUE: "i32", COUNT: "i64"}


class Jumps:
    """What may jump in a program."""

    def __init__(self, module: Module) -> None:
        self.module = module
        self.may: set[str] = set()
        self.names: dict[str, str] = {}
        self.has_sites = False

    def at(self, which: str) -> str:
        """The address of one of the globals."""
        if which not in self.names:
            self.names[which] = self.module.start.global_name(which.removeprefix("hippo."))
            self.module.start.globals.append(f"@{self.names[which]} = global {TYPES[which]} 0")
        return f"ptr @{self.names[which]}"

    def find(self, functions: list[Function]) -> None:
        """Finds the functions that may jump: those that call one, by name or by pointer."""
        callers: dict[str, set[str]] = {}
        for function in functions:
            for line in function.out:
                if isinstance(line, CallLine):
                    for name in self.reached(line.callee):
                        callers.setdefault(name, set()).add(function.written_name)
        waiting = [JUMP] if JUMP in callers else []
        while waiting:
            name = waiting.pop()
            if name not in self.may:
                self.may.add(name)
                waiting += callers.get(name, ())

    def reached(self, callee: str | CallType) -> list[str]:
        """The functions that a call may reach."""
        if isinstance(callee, str):
            return [callee]
        return [name for name, _ in self.module.dispatch.candidates(callee)]

    def may_jump(self, line: str | Phi) -> bool:
        """Whether a line is a call that may jump."""
        return isinstance(line, CallLine) and any(name in self.may for name in self.reached(line.callee))


def lower_jump(function: Function, call: Call) -> None:
    """The call of the runtime that begins a jump: the stores of its target and its value."""
    jumps = function.module.jumps
    for which, argument in zip((FRAME, SITE, VALUE), call.arguments):
        function.put(f"store {TYPES[which]} {argument.values[0]}, {jumps.at(which)}")
    function.note_call(JUMP)


def lower_setjmp(function: Function, call: Call) -> None:
    """`setjmp`: notes the run of the function and the site in the buffer. The block after it is the target of jumps."""
    jumps, buffer = function.module.jumps, call.arguments[0].values[0]
    jumps.has_sites = True
    if not function.activation:
        function.activation = begin_activation(function, jumps)
    before, site = (function.fresh(f"{function.origin}.{word}") for word in ("setjmp", "site"))
    function.put(f"br label {before}")
    function.begin(before[1:])
    function.put(f"store i64 {function.activation}, ptr {buffer}")
    place = function.emit(f"getelementptr i8, ptr {buffer}, i64 8")
    function.put(f"store i64 {len(function.sites)}, ptr {place}")
    function.put(f"br label {site}")
    function.go_on(site[1:])
    edges = [("0", before[1:])]
    target = function.results(call.target, "i32")[0] if call.target else function.fresh("setjmp.value")
    function.put_phi(f"{target} = phi i32", edges)
    function.sites.append((site, edges))


def begin_activation(function: Function, jumps: Jumps) -> str:
    """The number of this run of a function, which is counted when the function begins."""
    count, at = function.emit_at_entry(f"load i64, {jumps.at(COUNT)}"), jumps.at(COUNT)
    number = function.emit_at_entry(f"add i64 {count}, 1")
    function.entry.append(f"store i64 {number}, {at}")
    return number


def put_tests(function: Function) -> None:
    """Puts a test after each call of a function that may jump, and what follows a jump to the end of the function."""
    jumps = function.module.jumps
    if not any(map(jumps.may_jump, function.out)):
        return
    lines, function.out = function.out, []
    function.comment = function.added_comment
    leave = function.fresh("leave")
    target = function.fresh("jumped") if function.sites else leave
    first = label = ""
    for line in lines:
        function.out.append(line)
        if isinstance(line, str) and not line.startswith("  "):
            first = label = line[:-1]
        elif jumps.may_jump(line):
            label = put_test(function, target, label)
            function.moved[first] = label
    if function.sites:
        put_sites(function, target, leave)
    function.begin(leave[1:])
    if function.written_name == "@main":
        put_end_of_main(function, leave)
    else:
        function.put(f"ret {function.zero_result()}")


def put_test(function: Function, target: str, label: str) -> str:
    """The test after a call: whether a jump is on its way. The label of the block that goes on."""
    on = function.fresh(f"{label}.on")
    frame = function.emit(f"load i64, {function.module.jumps.at(FRAME)}")
    jumped = function.emit(f"icmp ne i64 {frame}, 0")
    function.put(f"br i1 {jumped}, label {target}, label {on}")
    function.begin(on[1:])
    return on[1:]


def put_sites(function: Function, target: str, leave: str) -> None:
    """The block that ends a jump whose target is this run of the function, at its site; other jumps leave the function."""
    jumps = function.module.jumps
    back, strange = (function.fresh(word) for word in ("jumped.back", "jumped.no.frame"))
    function.begin(target[1:])
    frame = function.emit(f"load i64, {jumps.at(FRAME)}")
    is_here = function.emit(f"icmp eq i64 {frame}, {function.activation}")
    function.put(f"br i1 {is_here}, label {back}, label {leave}")
    function.begin(back[1:])
    function.put(f"store i64 0, {jumps.at(FRAME)}")
    value = function.emit(f"load i32, {jumps.at(VALUE)}")
    which = function.emit(f"load i64, {jumps.at(SITE)}")
    cases = "".join(f"i64 {number}, label {site} " for number, (site, _) in enumerate(function.sites))
    function.put(f"switch i64 {which}, label {strange} [ {cases}]")
    for _, edges in function.sites:
        edges.append((value, back[1:]))
    function.begin(strange[1:])
    trap_in_call(function, "no.frame")


def put_end_of_main(function: Function, leave: str) -> None:
    """The end of `main` after a jump: a return for `exit`; a trap if no function is left that may be the target."""
    jumps = function.module.jumps
    at_exit, at_once, strange = (function.fresh(f"{leave[1:]}.{word}") for word in ("exit", "at.once", "no.frame"))
    frame = function.emit(f"load i64, {jumps.at(FRAME)}")
    status = function.emit(f"load i32, {jumps.at(VALUE)}")
    function.put(f"store i64 0, {jumps.at(FRAME)}")
    function.put(
        f"switch i64 {frame}, label {strange} [ i64 {EXIT}, label {at_exit} i64 {EXIT_AT_ONCE}, label {at_once} ]"
    )
    function.begin(at_exit[1:])
    function.module.start.before_return(function)
    function.put(f"ret i32 {status}")
    function.begin(at_once[1:])
    function.put(f"ret i32 {status}")
    function.begin(strange[1:])
    trap_in_call(function, "no.frame")
