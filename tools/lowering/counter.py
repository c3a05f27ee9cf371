"""The processor's counter of time. Each reading gives a greater number, so a loop that waits for a time ends."""
from __future__ import annotations

from typing import TYPE_CHECKING

from .names import clean_name

if TYPE_CHECKING:
    from .function import Function
    from .module import Module

STEP = 1000
HELPER = """define i64 {name}() {{
entry:
  %now = load i64, ptr @{ticks}
  %next = add i64 %now, {step}
  store i64 %next, ptr @{ticks}
  ret i64 %next
}}"""


def read_counter(function: Function) -> str:
    """A reading of the counter, as an i64."""
    module = function.module
    module.note("counter")
    helper = module.helper("hippo.counter", lambda name: counter(module, name))
    return function.emit(f"call i64 {helper}()")


def counter(module: Module, name: str) -> str:
    """The text of the function that reads the counter; its last reading is a global."""
    ticks = clean_name("hippo.ticks", module.taken, "g")
    module.start.globals.append(f"@{ticks} = global i64 0")
    return HELPER.format(name=name, ticks=ticks, step=STEP)
