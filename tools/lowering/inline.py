"""Functions that C declares `inline`, or C++ as instances of a template elsewhere, and that no file defines: clang leaves out their bodies."""
from __future__ import annotations

import re

from .commands import output_of
from .runtime import undefined
from .throws import without_throws

INLINE = re.compile(r'^define available_externally [^@\n]*@("[^"\n]*"|[-A-Za-z$._0-9]+)\(', re.M)


def link_inline(
    program: str, text: str, sources: list[tuple[list[str], set[str]]], level: str, folder: str
) -> tuple[str, set[str]]:
    """The name of a file with the program and the inline functions that it needs, and the names of these functions.

    A source is the command that compiles a file, and names among which are those of its inline functions. The commands run without
    LLVM's passes, which would drop the bodies; the passes run afterwards.
    """
    needed, found = undefined(text), set()
    for number, (command, known) in enumerate(sources):
        if not needed & known:
            continue
        body, _ = without_throws(output_of([*command, "-w", "-Xclang", "-disable-llvm-passes", "-o", "-"]))
        names = {name.strip('"') for name in INLINE.findall(body)}
        if not needed & names:
            continue
        found |= names
        needed |= names
        module, target = f"{folder}/inline.{number}.ll", f"{folder}/with_inline.{number}.ll"
        kept = INLINE.sub(lambda match: match.group().replace("available_externally", "linkonce_odr"), body)
        passes = [] if level == "-O0" else ["-passes=default<O1>"]
        with open(module, "w", encoding="latin-1") as file:
            file.write(output_of(["opt-19", "-S", *passes, "-"], kept))
        output_of(["llvm-link-19", "-S", "--only-needed", "-o", target, program, module])
        program = target
    return program, found
