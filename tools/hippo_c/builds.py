"""The build of a project: the files and arguments of its compile_commands.json, and arguments for clang before `--`."""
from __future__ import annotations

import argparse
import os
import re

from lowering.commands import Failure
from lowering.compile_commands import commands_of
from lowering.languages import is_source

from .trouble import Trouble

LIST, BUILD = "compile_commands.json", "-p"
# Arguments for clang that need no `--` before them: the option, what it names, and what it is for.
FOR_CLANG = (
    ("-I", "FOLDER", "for clang: a folder of headers"),
    ("-D", "NAME[=VALUE]", "for clang: a macro"),
    ("-U", "NAME", "for clang: a macro that is not defined"),
    ("-std", "LANGUAGE", "for clang: the form of C or C++, as in -std=c11"),
)


def add_options(command: argparse.ArgumentParser) -> None:
    """The options that say how the files are compiled."""
    command.add_argument(
        BUILD, dest="build", metavar="BUILD", help="check the files of BUILD/compile_commands.json, each as it says"
    )
    command.add_argument("--only", metavar="REGEX", help="of these files only those whose paths have a match")
    for option, metavar, what in FOR_CLANG:
        form = f"{option}=" if option == "-std" else option
        names = [option, "--std"] if option == "-std" else [option]
        command.add_argument(
            *names, dest="for_clang", action="append", type=f"{form}{{}}".format, metavar=metavar, help=what
        )


def take_files(options: argparse.Namespace) -> None:
    """Adds the files of a build to those that are given."""
    if options.build is None:
        if options.only is not None:
            raise Trouble("--only chooses among the files of a build: give -p BUILD too")
        return
    if options.compile_commands:
        raise Trouble("give one of -p and --compile-commands")
    path = os.path.join(options.build, LIST) if os.path.isdir(options.build) else options.build
    if not os.path.isfile(path):
        raise Trouble(
            f"-p {options.build}: no {LIST} is there",
            "CMake writes it with -DCMAKE_EXPORT_COMPILE_COMMANDS=ON, Meson always, and other builds by: bear -- make",
        )
    given = {os.path.realpath(file) for file in options.files}
    options.files = [
        *options.files,
        *(file for file in files_of(path, options.only) if os.path.realpath(file) not in given),
    ]
    options.build = path


def words_of(options: argparse.Namespace) -> list[str]:
    """The words that name the build again, each in one word."""
    only = [] if options.only is None else [f"--only={options.only}"]
    return [] if options.build is None else [f"{BUILD}{options.build}", *only]


def is_of_build(word: str) -> bool:
    """Whether a word names the build, or chooses among its files."""
    return word.startswith("--only=") or word.startswith(BUILD)


def files_of(path: str, only: str | None) -> list[str]:
    """The C and C++ files of a list of commands whose paths fit, from the current folder."""
    try:
        files = [os.path.relpath(file) for file in commands_of(path) if is_source(file)]
    except Failure as failure:
        raise Trouble(str(failure)) from None
    if not files:
        raise Trouble(f"{path}: it lists no C or C++ file")
    try:
        found = [file for file in files if re.search(only or "", file)]
    except re.error as error:
        raise Trouble(f"--only {only}: not a regular expression: {error}") from None
    if not found:
        raise Trouble(f"--only {only}: it fits none of the {len(files)} files of {path}, such as {files[0]}")
    missing = next((file for file in found if not os.path.isfile(file)), "")
    if missing:
        raise Trouble(
            f"{path}: it lists {missing}, which is not there", "make the build again, or choose files by --only"
        )
    return found
