"""The parsers of hippo-c's command line."""
from __future__ import annotations

import argparse
import sys
from collections.abc import Callable
from typing import IO, NamedTuple

from lowering import options as lowering_options

from . import (
    about,
    boundaries,
    builds,
    candidates,
    checking,
    crashing,
    explore_options,
    exploring,
    install,
    pools,
    repairing,
    starting,
)
from .numbers import MOST_TURNS, from_to
from .progress import Progress
from .request import Request

DESCRIPTION = """Durability of C programs, by lines of C.

What hippo-c says about durability is an answer of hippo, in another form; hippo-c itself is not proved."""
EPILOG = """Arguments for clang stand after "--". Exit codes: 0 nothing found, 1 durability bugs found,
2 the command failed, or a run trapped or was cut. docs/HIPPO_C.md has the whole manual."""


class Parser(argparse.ArgumentParser):
    """A parser that fails where its help cannot be written."""

    def _print_message(self, message: str, file: IO[str] | None = None) -> None:
        """Writes the help, or what is wrong with the words."""
        if message:
            (file or sys.stderr).write(message)


class OfProgram(NamedTuple):
    """A command that runs a program: its name, what it does, its own options, and the function that carries it out."""

    name: str
    what: str
    add_options: Callable[[argparse.ArgumentParser], None] | None
    carry_out: Callable[[argparse.Namespace, Request, Progress], int]


OF_PROGRAMS = (
    OfProgram(
        "check",
        "run the program, and report each store that is not durable where it has to be",
        checking.add_options,
        checking.check,
    ),
    OfProgram("run", "run the program, and show what it prints and where it traps", None, checking.run),
    OfProgram("repair", "write a repaired program, and show what was added", repairing.add_options, repairing.repair),
    OfProgram(
        "crash",
        "run the program from what a power cut may leave, at many places",
        crashing.add_options,
        crashing.crash,
    ),
    OfProgram(
        "explore",
        "search inputs and power cuts that show durability bugs",
        explore_options.add_options,
        exploring.explore,
    ),
    OfProgram(
        "pool", "write the bytes of a pool that a run leaves, or a power cut in it", pools.add_options, pools.pool
    ),
    OfProgram("suggest-commits", "list stores that look like commit points, for --commit", None, candidates.suggest),
)


def parser() -> argparse.ArgumentParser:
    """The parser of all words before `--`."""
    form = argparse.RawDescriptionHelpFormatter
    top = Parser("hippo-c", description=DESCRIPTION, epilog=EPILOG, formatter_class=form)
    top.add_argument("--version", action=about.ShowVersion)
    commands = top.add_subparsers(dest="command", metavar="COMMAND", required=True)
    for one in OF_PROGRAMS:
        command = commands.add_parser(one.name, help=one.what)
        add_program(command)
        if one.add_options:
            one.add_options(command)
        if not any("--jobs" in action.option_strings for action in command._actions):
            add_jobs(command)
        command.set_defaults(carry_out=one.carry_out)
    commands.add_parser("doctor", help="say what hippo-c needs and what is missing, and make a first check")
    begin = commands.add_parser("init", help="write a commented hippo.toml, a rule for make and a first program")
    starting.add_options(begin)
    for name, language in (("cc", "C"), ("c++", "C++")):
        commands.add_parser(
            name, help=f"compile {language} for a build, with objects that check takes as FILEs", add_help=False
        )
    put = commands.add_parser(
        "install", help="copy hippo, hippo-c, the header, manual pages and completions into a folder"
    )
    install.add_options(put)
    return top


def add_jobs(command: argparse.ArgumentParser) -> None:
    """How much a command does at once, if it has no such word of its own."""
    command.add_argument(
        "-j",
        "--jobs",
        dest="compile_jobs",
        type=from_to(1),
        metavar="N",
        help="compile at most N files at once (one on each processor)",
    )


def add_program(command: argparse.ArgumentParser) -> None:
    """The words of each command that runs a program."""
    command.add_argument(
        "files",
        nargs="*",
        metavar="FILE",
        help=".c, .cpp, or .ll in hippo's subset or of clang 19; without one, those of hippo.toml",
    )
    command.add_argument("-O", dest="level", choices=list("0123s"), help="the level of clang (1)")
    lowering_options.add_options(command, as_text=True)
    boundaries.add_options(command)
    builds.add_options(command)
    command.add_argument("--version", action=about.ShowVersion)
    command.add_argument("-q", "--quiet", action="store_true", help="show reports and errors alone")
    command.add_argument(
        "--strict",
        action="store_true",
        help="refuse what has no form in hippo, and assume nothing of output and of the words of main",
    )
    add_run(command)


def add_run(command: argparse.ArgumentParser) -> None:
    """What a run is given, and how its answer is shown."""
    command.add_argument("--input", nargs="*", metavar="N", default=None, help="the numbers that the program reads")
    command.add_argument("--input-file", metavar="FILE", help="a file with these numbers")
    command.add_argument(
        "--limit",
        type=from_to(0, MOST_TURNS),
        metavar="N",
        help="the greatest number of turns of a run (1,000,000,000)",
    )
    command.add_argument(
        "--expand-macros",
        action="store_true",
        help="expand the macros of each .c on its line, so that " "columns distinguish the statements of a macro",
    )
    command.add_argument("--color", choices=["auto", "always", "never"], default="auto")
    command.add_argument("--no-source", action="store_true", help="leave out the lines of C under the warnings")
    command.add_argument("--keep", metavar="FOLDER", help="keep the lowered text and the traces in this folder")
