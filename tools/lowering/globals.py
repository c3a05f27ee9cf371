"""Globals: their lines in clang's text, and in the subset."""
from __future__ import annotations

import re
from typing import TYPE_CHECKING

from .initializers import read_initial
from .names import GLOBAL_NAME, LOOKS_PERSISTENT, PERSISTENT, unescaped
from .refusals import Refused
from .stack import LARGEST_ALIGNMENT
from .tokens import LINKAGE, Tokens
from .types import alignment, read_type, show_type, size

if TYPE_CHECKING:
    from .module import Module

# Where a global states no alignment, LLVM's passes assume this one for more than as many bytes.
OF_LARGE_GLOBALS = 16
ALIAS = re.compile(GLOBAL_NAME + r" = (?:\w+ )*?(alias|ifunc) .*, (?:ptr (@\S+?)|(.*))(?:, partition .*)?$")
UNDEFINED = re.compile(GLOBAL_NAME + r" = (?:\w+(?:\(\w+\))? )*?(external|extern_weak) ")


def global_text(module: Module, line: str) -> str:
    """A global in the subset."""
    tokens = Tokens(line)
    name = module.names[tokens.take()]
    tokens.take("=")
    tokens.take_all(LINKAGE)
    if tokens.take_if("thread_local"):
        take_thread_local(module, tokens)
    tokens.take_all(LINKAGE | {"externally_initialized"})
    kind = tokens.take()
    if kind not in ("global", "constant"):
        raise Refused(f"{kind}: a global of this kind is not in the subset")
    type_ = read_type(tokens, module.named_types)
    shown, value = read_initial(tokens, type_, module)
    section, least = properties(module, tokens)
    if section:
        module.persistent.append((name, size(type_)))
    if not least:
        assumed = max(alignment(type_), OF_LARGE_GLOBALS if size(type_) > OF_LARGE_GLOBALS else 1)
        least = assumed if assumed > alignment(shown) else 0
    aligned = f", align {least}" if least else ""
    return f"@{name} = {kind} {show_type(shown)} {value}{section}{aligned}"


def take_thread_local(module: Module, tokens: Tokens) -> None:
    """Takes thread-local data as a global, if one thread runs."""
    if tokens.peek() == "(":
        tokens.skip_parentheses()
    if not module.options.single_thread:
        raise Refused("thread_local: data of each thread", "thread")
    module.note("thread_local")


def properties(module: Module, tokens: Tokens) -> tuple[str, int]:
    """The section, as it is written in the subset, and the alignment."""
    section, least = "", 0
    while tokens.take_if(","):
        word = tokens.take()
        if word == "section":
            section = section_text(module, tokens.take())
        elif word == "align":
            least = int(tokens.take())
            if least > LARGEST_ALIGNMENT:
                raise Refused(f"align {least}: at most {LARGEST_ALIGNMENT}", "limit")
        elif word == "comdat":
            if tokens.peek() == "(":
                tokens.skip_parentheses()
        else:
            raise Refused(f"{word}: a property of globals that is not in the subset")
    refuse_pragma(module.sections_by_pragma.get(tokens.peek(), ""))
    return section, least


def refuse_pragma(section: str) -> None:
    """Refuses a section of `#pragma clang section` that is persistent, or looks so: the text says nothing of it where the global is."""
    if LOOKS_PERSISTENT.match(unescaped(section)):
        raise Refused(f'section "{section}" by a pragma', "section")


def section_text(module: Module, written: str) -> str:
    """The persistent section; others are left out, but a name that is meant for it is refused."""
    name = unescaped(written.strip('"'))
    if name == PERSISTENT:
        return f', section "{PERSISTENT}"'
    if LOOKS_PERSISTENT.match(name):
        raise Refused(f'section {written}: by its name it is persistent, and only section "{PERSISTENT}" is', "section")
    module.note("section", SECTION=written)
    return ""
