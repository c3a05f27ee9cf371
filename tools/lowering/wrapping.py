"""`--wrap NAME`, as the linker has it: a file that does not define NAME calls __wrap_NAME in its place, and __real_NAME is NAME."""
from __future__ import annotations

import re


def wrapped(text: str, names: list[str]) -> str:
    """The text of one file's module with the references of other names."""
    for name in names:
        if not re.search(rf"^define [^@\n]*@{re.escape(name)}\(", text, re.M):
            text = renamed(text, name, f"__wrap_{name}")
        text = renamed(text, f"__real_{name}", name)
    return merged(text)


def renamed(text: str, old: str, new: str) -> str:
    """The text with one name in place of another."""
    return re.sub(rf"@{re.escape(old)}(?![-\w$.])", f"@{new}", text, flags=re.ASCII)


def merged(text: str) -> str:
    """The text with each function declared once, and only if it is not defined."""
    seen = set(re.findall(r"^define [^@\n]*@([-\w$.]+)\(", text, re.M | re.ASCII))
    lines = []
    for line in text.split("\n"):
        if found := re.match(r"declare [^@\n]*@([-\w$.]+)\(", line, re.ASCII):
            if found[1] in seen:
                continue
            seen.add(found[1])
        lines.append(line)
    return "\n".join(lines)
