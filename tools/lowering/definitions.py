"""What the modules of a program say of each other's definitions: one `main`, and one word about what is persistent."""
from __future__ import annotations

import os
import re
import stat
from typing import Iterable

from .commands import NO_FILE, READ_FAULT, REFUSED, Failure
from .names import LOOKS_PERSISTENT, PERSISTENT, unescaped

# A global with a section that another module defines.
DECLARED_IN_SECTION = re.compile(
    r'^@("[^"\n]*"|[-A-Za-z$._0-9]+) = (?:\w+ )*?external [^\n]* section "([^"\n]*)"', re.M
)

MAIN = re.compile(r"^define [^@\n]*@main\(", re.M)


def check_mains(names: list[str], modules: list[str]) -> None:
    """Refuses a second `main`, since a program has one."""
    found = [name for name, module in zip(names, modules) if MAIN.search(read(module))]
    if len(found) > 1:
        raise Failure(f'main is defined in {" and in ".join(found)}: give one of these files', REFUSED)


def persistent_declarations(modules: Iterable[tuple[str, str]]) -> dict[str, str]:
    """The names that a module declares in a section that looks persistent, and does not define, each with its file."""
    return {
        name: file
        for file, module in modules
        for name, section in DECLARED_IN_SECTION.findall(read(module))
        if LOOKS_PERSISTENT.match(unescaped(section))
    }


def check_definitions(declared: dict[str, str], text: str) -> None:
    """Refuses what is declared persistent in one file and defined as volatile in another: the definition alone would decide."""
    defined = {name: line for name, line in re.findall(r'^@("[^"\n]*"|[-A-Za-z$._0-9]+) = (.*)$', text, re.M)}
    for name, file in declared.items():
        line = defined.get(name, "external")
        if not re.search(r"\bexternal\b", line.split(" section ")[0]) and f' section "{PERSISTENT}"' not in line:
            raise Failure(
                f"{file}: {name} is declared persistent, and its definition is not: write PERSISTENT before the definition",
                REFUSED,
            )


def read(file: str) -> str:
    """The text of a file or a pipe. A device may have no end."""
    try:
        with open(file, encoding="latin-1") as text:
            if stat.S_ISCHR(os.fstat(text.fileno()).st_mode):
                raise Failure(f"read fault: {file}: this is a device", READ_FAULT)
            return text.read()
    except FileNotFoundError:
        raise Failure(f"no file: {file}", NO_FILE) from None
    except OSError as error:
        raise Failure(f"read fault: {file}: {error.strerror}", READ_FAULT) from None
