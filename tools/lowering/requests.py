"""Requests to Valgrind, the instructions by which a program talks to the tool that runs it.

In the program's text a request has its default, as outside of Valgrind. `--requests FILE` writes a second text, of a run under pmemcheck:
it says that it runs on Valgrind and that memory is a mapping of persistent memory, and each request of pmemcheck that is
about a range notes its site, its code and its range by four stores into @hippo.requests, the last persistent global. So a
trace of the second text has the requests in order among its stores."""
from __future__ import annotations

from typing import TYPE_CHECKING

from .refusals import Refused
from .tokens import Tokens

if TYPE_CHECKING:
    from .function import Function
    from .module import Module

NOTES = "hippo.requests"
HELPER = "hippo.request"
# The codes of valgrind.h and pmemcheck.h: a tool's code is its two letters, and a number.
RUNNING_ON_VALGRIND = 0x1001
PMEMCHECK = ord("P") << 24 | ord("C") << 16
REGISTER_MAPPING, REGISTER_FILE, REMOVE_MAPPING, CHECK_MAPPING = (PMEMCHECK + number for number in range(4))
SET_CLEAN = PMEMCHECK + 17
# Where the range of a request lies among the words of its arguments, of which the first is the code.
RANGES = {REGISTER_MAPPING: 1, REGISTER_FILE: 2, REMOVE_MAPPING: 1, SET_CLEAN: 1}


def lower_request(function: Function, tokens: Tokens, target: str, constraints: list[str]) -> None:
    """A request in the second text: a call with the address of its words, its default, and the number of its site."""
    if constraints[:3] != ["={dx}", "{ax}", "0"]:
        raise Refused("a request to Valgrind in other registers than RAX and RDX", "assembly")
    tokens.take("(")
    words = function.argument(tokens)[1][0]
    tokens.take(",")
    default = function.argument(tokens)[1][0]
    module = function.module
    helper = module.helper(HELPER, lambda name: helper_text(module, name))
    module.request_count += 1
    value = function.emit(f"call i64 {helper}(ptr {words}, i64 {default}, i64 {module.request_count})")
    function.become(target, "i64", [value])


def helper_text(module: Module, name: str) -> str:
    """The function that answers a request, and notes one that is about a range."""
    notes = module.start.global_name(NOTES.removeprefix("hippo."))
    module.start.globals.append(f'@{notes} = global [4 x i64] zeroinitializer, section ".pm", align 64')
    cases = "".join(f"i64 {code}, label %range.{place} " for code, place in RANGES.items())
    lines = [
        f"define i64 {name}(ptr %words, i64 %default, i64 %site) {{",
        "entry:",
        "  %code = load i64, ptr %words",
        f"  switch i64 %code, label %other [ i64 {RUNNING_ON_VALGRIND}, label %yes i64 {CHECK_MAPPING}, label %yes {cases}]",
        "yes:",
        "  ret i64 1",
        "other:",
        "  ret i64 %default",
    ]
    for place in sorted(set(RANGES.values())):
        lines.append(f"range.{place}:")
        noted = [("%site", 0), ("%code", 8)]
        for word, at in ((place, 16), (place + 1, 24)):
            lines += [
                f"  %at.{place}.{word} = getelementptr i8, ptr %words, i64 {8 * word}",
                f"  %word.{place}.{word} = load i64, ptr %at.{place}.{word}",
            ]
            noted.append((f"%word.{place}.{word}", at))
        for value, at in noted:
            lines += [
                f"  %note.{place}.{at} = getelementptr i8, ptr @{notes}, i64 {at}",
                f"  store i64 {value}, ptr %note.{place}.{at}",
            ]
        lines.append("  ret i64 0")
    return "\n".join([*lines, "}"])
