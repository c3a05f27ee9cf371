"""The command init: a commented hippo.toml, a rule for make and a first program in a folder."""
from __future__ import annotations

import argparse
import os

from .config import NAME
from .trouble import Trouble
from .writing import whole_file

CONFIG = """# The words of this project for hippo-c, so that `hippo-c check` alone checks it.
# A key is an option without its dashes; a path is relative to the folder of this file.

[hippo]                           # for each command
sources = ["first.c"]             # the C and C++ files, with a main that drives them
# p = "build"                     # in their place: the files of build/compile_commands.json
# only = "src/"                   # of these files only those whose paths have a match
# clang = ["-Iinclude", "-DSMALL"]
# args = ["--quick"]              # the words of main
# single-thread = true            # atomic accesses and locks are those of one thread

[check]                           # for `hippo-c check`
input = [3, 4]                    # the numbers that read_i64 returns
check-return = ["add"]            # when these functions return, all they stored must be durable
# inputs = "inputs"               # in place of `input`: a file with the numbers of a run in each line
# baseline = "hippo.baseline"     # groups that are known; `hippo-c check --write-baseline hippo.baseline` writes them

[crash]                           # for `hippo-c crash`
input = [3, 4]
"""
PROGRAM = """#include <hippo.h>

// What PERSISTENT stands before keeps its content without power.
PERSISTENT struct {
  long count, sum;
} totals;

// This function promises that all is durable when it returns; hippo.toml names it. The second line of its work has no flush.
void add(long number) {
  totals.sum += number;
  pmem_persist(&totals.sum, sizeof totals.sum);
  totals.count += 1;
}

int main(void) {
  add(read_i64());
  add(read_i64());
  return 0;
}
"""
MAKEFILE = """# `make check` checks the program that hippo.toml describes.
HIPPO_C ?= hippo-c

.PHONY: check
check:
\t$(HIPPO_C) check
"""
FILES = {NAME: CONFIG, "first.c": PROGRAM, "Makefile": MAKEFILE}


def add_options(command: argparse.ArgumentParser) -> None:
    """The words of init."""
    command.add_argument("folder", nargs="?", default=".", metavar="FOLDER", help="where to write them (here)")


def init(options: argparse.Namespace) -> int:
    """Writes the files, none of which may be there."""
    for name in FILES:
        path = os.path.join(options.folder, name)
        if os.path.lexists(path):
            raise Trouble(
                f"{os.path.normpath(path)}: this file is there already", "name a new folder: hippo-c init FOLDER"
            )
    try:
        os.makedirs(options.folder, exist_ok=True)
        for name, text in FILES.items():
            with whole_file(os.path.join(options.folder, name)) as file:
                file.write(text.encode())
    except OSError as error:
        raise Trouble(f"{error.filename or options.folder}: {error.strerror}") from None
    where = "" if os.path.normpath(options.folder) == "." else f"cd {options.folder} && "
    print(f'written: {", ".join(FILES)}; next: {where}hippo-c check')
    return 0
