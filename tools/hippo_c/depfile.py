"""A file for make and CMake with all that an answer depends on: sources, headers, and the files of pools."""
from __future__ import annotations

import argparse
import os
import re

from lowering.languages import is_source

from .clang import clang_for
from .running import TOOLS, tool
from .session import Session
from .trouble import Trouble
from .writing import output_file

ENDING = ".d"
# A word of a rule of make, in which a backslash stands before a blank, a `#` and a backslash before these, and `$$` for `$`.
WORD = re.compile(r"(?:\\[ #\\]|\$\$|[^\s])+")


def add_option(command: argparse.ArgumentParser) -> None:
    """The option that writes the file."""
    command.add_argument(
        "--depfile", metavar="FILE.d", help="write a rule of make: FILE depends on all files that were read"
    )


def check_word(options: argparse.Namespace) -> None:
    """Refuses a name without the ending, since the rule is for the name before it."""
    if options.depfile is not None and not options.depfile.endswith(ENDING):
        raise Trouble(
            f"--depfile {options.depfile}: not a name that ends in {ENDING}",
            "the rule is for the name before this ending",
        )


def write_depfile(options: argparse.Namespace, session: Session) -> None:
    """Writes the rule, and a rule without anything for each file, so that make goes on when one is removed."""
    if options.depfile is None:
        return
    files = [*session.request.files, *(pool.split(",", 1)[1] for pool in options.pool or [] if "," in pool)]
    for file in session.request.files:
        if is_source(file):
            files += read_by_clang(session, file)
    names = sorted({spelled(os.path.abspath(file)) for file in files})
    rules = [
        f"{spelled(options.depfile.removesuffix(ENDING))}:",
        *(f" \\\n  {name}" for name in names),
        "\n",
        *(f"{name}:\n" for name in names),
    ]
    with output_file(options.depfile) as out:
        out.write("".join(rules).encode("utf-8", "surrogateescape"))


def read_by_clang(session: Session, file: str) -> list[str]:
    """The files that clang reads for a file of C or C++."""
    ran = tool([*clang_for(file), f"-I{TOOLS}", *session.request.clang_of(file), "-M", "-MT", "target", file])
    if ran.returncode:
        raise Trouble(f'{file}: clang does not list its headers:\n{ran.stderr.decode("utf-8", "replace").rstrip()}')
    rule = ran.stdout.decode("utf-8", "surrogateescape").replace("\\\n", " ").partition(":")[2]
    return [re.sub(r"\\([ #\\])", r"\1", word).replace("$$", "$") for word in WORD.findall(rule)]


def spelled(name: str) -> str:
    """A name as make reads it."""
    return re.sub(r"([ #])", r"\\\1", name).replace("$", "$$")
