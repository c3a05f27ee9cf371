"""The version of hippo-c, and what is known of the hippo that it runs."""
from __future__ import annotations

import argparse
import os
from functools import cache
from typing import Any

from . import running
from .trouble import Trouble

UNKNOWN = "proved: unknown, HIPPO_PROGRAM names {}"


@cache
def lines() -> tuple[str, ...]:
    """What `hippo --version` answers: in the repository the launcher's answer, in an installation what it was made from."""
    kept = os.path.join(running.TOOLS, "about", "version")
    if os.path.isfile(kept):
        with open(kept, encoding="utf-8") as file:
            found = file.read().splitlines()
    else:
        launcher = os.path.join(os.path.dirname(running.TOOLS), "hippo")
        ran = running.tool([launcher, "--version"])
        if ran.returncode:
            raise Trouble(f"{launcher} --version ends with {ran.returncode}")
        found = ran.stdout.decode("utf-8", "replace").splitlines()
    named = os.environ.get("HIPPO_PROGRAM")
    if named:
        found = [UNKNOWN.format(named) if line.startswith("proved: ") else line for line in found]
    return tuple(found)


def version() -> str:
    """The version, such as `0.1.0`."""
    return lines()[0].partition(" ")[2]


def program() -> dict[str, str]:
    """What is known of the hippo that runs: its commit, the toolchain, and whether it is proved."""
    return dict(line.split(": ", 1) for line in lines()[1:] if ": " in line)


class ShowVersion(argparse.Action):
    """Prints the version and ends."""

    def __init__(self, option_strings: list[str], dest: str, **_: Any) -> None:
        super().__init__(
            option_strings,
            dest,
            nargs=0,
            default=argparse.SUPPRESS,
            help="show the version, and whether hippo is proved",
        )

    def __call__(self, parser: argparse.ArgumentParser, *_: object) -> None:
        print("\n".join((f"hippo-c {version()}", *lines()[1:])))
        parser.exit()
