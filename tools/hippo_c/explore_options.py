"""The options of the command explore, and the words of the engine that follow from them."""
from __future__ import annotations

import argparse
import re

from .behaviours import MOST_BEHAVIOURS
from .numbers import from_to, seconds
from .trouble import Trouble

RANGE = re.compile(r"(-?[0-9]{1,18})-(-?[0-9]{1,18})")


def add_options(command: argparse.ArgumentParser) -> None:
    """The options of explore that other commands do not have."""
    add_search(command)
    add_power_cuts(command)
    add_answers(command)


def add_search(command: argparse.ArgumentParser) -> None:
    """The options of the search for inputs."""
    command.add_argument(
        "--inputs", metavar="FILE", help="a file with an input in each line, from which the search begins"
    )
    command.add_argument("--time", type=seconds, default=60, metavar="SECONDS", help="processor time of each job (60)")
    command.add_argument(
        "--runs",
        type=from_to(1),
        metavar="N",
        help="stop after N runs in place of a time, so that equal words give equal answers",
    )
    command.add_argument("--seed", type=from_to(0, 1 << 62), default=1, metavar="N", help="the seed of the search (1)")
    command.add_argument("--range", dest="bounds", metavar="A-B", help="bounds of the numbers that the search makes")
    command.add_argument(
        "--numbers", type=from_to(1, 100_000), default=200, metavar="N", help="the greatest length of an input (200)"
    )
    command.add_argument(
        "--corpus",
        metavar="FILE",
        help="begin with the inputs of this file too, and write those that were found into it",
    )
    command.add_argument(
        "--pools", metavar="FOLDER", help="write the files of pools whose other bytes show a finding into this folder"
    )
    command.add_argument(
        "--merge", nargs="+", metavar="CORPUS", help="only unite these files, and show what their inputs show"
    )
    command.add_argument(
        "-j",
        "--jobs",
        type=from_to(1, 64),
        default=1,
        metavar="N",
        help="the number of searches side by side, with seeds one after another (1)",
    )


def add_power_cuts(command: argparse.ArgumentParser) -> None:
    """The options of power cuts and of the runs after them."""
    command.add_argument(
        "--crashes",
        type=from_to(0, 4),
        default=2,
        metavar="N",
        help="power cuts one after another that are tried; 2 cuts the recovery too, 0 tries none (2)",
    )
    command.add_argument(
        "--status", action="store_true", help="a run after a power cut also fails if main returns another number"
    )
    add_recovery(command)


def add_recovery(command: argparse.ArgumentParser) -> None:
    """The options that say where a recovery ends, and what must be whole after it."""
    command.add_argument(
        "--recover",
        action="append",
        default=[],
        metavar="FUNCTION",
        help="the recovery ends when this function returns",
    )
    command.add_argument(
        "--atomic",
        action="store_true",
        help="each command that the program reads must be done or not done after a power cut",
    )


def add_answers(command: argparse.ArgumentParser) -> None:
    """The options of the answer's forms."""
    command.add_argument(
        "--groups", type=from_to(0), default=50, metavar="N", help="show at most N groups, 0 for all (50)"
    )
    command.add_argument(
        "--behaviours",
        type=from_to(0),
        default=MOST_BEHAVIOURS,
        metavar="N",
        help=f"confirm at most N behaviours of crash points for --json and --html ({MOST_BEHAVIOURS})",
    )
    command.add_argument("--show-missed", action="store_true", help="list the places in C that never ran")
    command.add_argument("--json", metavar="FILE", help="write the answer as JSON, - for standard output")
    command.add_argument("--sarif", metavar="FILE", help="write the answer as SARIF 2.1.0")
    command.add_argument("--html", metavar="FILE", help="write the answer as a page for a browser")


def bounds_of(text: str | None) -> tuple[int, int] | None:
    """The bounds `A-B` of drawn numbers."""
    if text is None:
        return None
    found = RANGE.fullmatch(text)
    if not found or int(found[1]) > int(found[2]):
        raise Trouble(f"--range {text}: not A-B with A at most B")
    return int(found[1]), int(found[2])


def words_of(options: argparse.Namespace, bounds: tuple[int, int] | None) -> list[str]:
    """The options of the engine, without the seed."""
    given = vars(options)
    said = [
        "--time",
        str(options.time or 60),
        "--runs",
        str(options.runs or 0),
        "--numbers",
        str(given.get("numbers", 200)),
        "--crashes",
        str(options.crashes),
        "--status",
        str(int(options.status)),
        "--atomic",
        str(int(given.get("atomic", False))),
    ]
    return said + (["--least", str(bounds[0]), "--greatest", str(bounds[1])] if bounds else [])
