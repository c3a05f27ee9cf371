"""Divisions of integers above 64 bits: a division by zero traps, as the processor's own does.

LLVM's pass computes such a quotient bit by bit, and gives some number for a divisor of zero. So a call of a function that traps then
stands before each division by what may be zero."""
from __future__ import annotations

import re
from string import Template

WIDE = r"i(?:6[5-9]|[7-9]\d|1[01]\d|12[0-8])"
DIVISION = re.compile(
    rf'^ +%(?:"[^"\n]*"|\S+) = [us](?:div|rem) (?:exact )?({WIDE}) (?:%"[^"\n]*"|[^\s,]+), '
    r'(%"[^"\n]*"|[^\s,]+)(?:.*?(, !dbg !\d+))?.*$',
    re.M,
)
CHECK = Template(
    """
define internal void @"divisor.$type"($type %divisor) noinline {
entry:
  %is.zero = icmp eq $type %divisor, 0
  br i1 %is.zero, label %trap, label %done
trap:
  %never = udiv i64 1, 0
  unreachable
done:
  ret void
}
"""
)


def with_checks(text: str) -> str:
    """A module with a check before each division of more than 64 bits whose divisor is no number but zero."""
    types = set()

    def checked(found: re.Match[str]) -> str:
        """The lines of a division."""
        type_, divisor, place = found[1], found[2], found[3] or ""
        if re.fullmatch(r"-?[1-9]\d*", divisor):
            return found[0]
        types.add(type_)
        return f'  call void @"divisor.{type_}"({type_} {divisor}){place}\n{found[0]}'

    changed = DIVISION.sub(checked, text)
    return changed + "".join(CHECK.substitute(type=type_) for type_ in sorted(types))
