"""The commands that show a finding of explore again, as a user types them."""
from __future__ import annotations

import argparse
import shlex

from .diagnostics import amount
from .findings import Failure, Outputs, Report
from .following import Crash
from .pool_starts import PoolFiles, Start
from .session import Session
from .words import FROM_INPUT, decoded, reads_words


class Again:
    """The commands that show a finding again."""

    def __init__(self, options: argparse.Namespace, session: Session, pools: PoolFiles | None = None) -> None:
        request, self.pools = session.request, pools
        self.has_words = FROM_INPUT in request.lower and reads_words(session.program)
        self.files, self.lower, self.boundaries = (
            request.files,
            request.lower,
            [boundary.given for boundary in request.boundaries],
        )
        self.status = ["--status"] if options.status else []
        self.limit = session.limit_words()
        self.clang = ["--", *request.clang] if request.clang else []

    def check(self, numbers: list[int], start: Start = ()) -> str:
        """The check of an input."""
        return self.command("check", numbers, self.limit, start)

    def crash(self, found: Report | Failure | Outputs, crashes: list[Crash], limit: int | None) -> str:
        """The run after power cuts."""
        numbers, told = found.numbers, found.told
        words = [*(["--limit", str(limit)] if limit else self.limit), *self.status]
        left_out = len(numbers) - len(self.split(numbers)[1])
        for number, crash in enumerate(crashes):
            picks = [f"{line}:{upto}" for line, upto in crash.picks]
            entry = str(crash.entry - left_out)
            words += ["--then", entry, *picks] if number else ["--entries", entry, "--pick", *picks]
        return self.command("crash", numbers, [*words, *(["--prints", str(told)] if told else [])], found.start)

    def repair(self, corpus: str) -> str:
        """The repair for all inputs of a corpus."""
        return shlex.join(
            [
                "hippo-c",
                "repair",
                *self.files,
                *self.lower,
                *self.boundaries,
                "--inputs",
                corpus,
                "-o",
                "repaired.o",
                *self.clang,
            ]
        )

    def command(self, name: str, numbers: list[int], words: list[str], start: Start) -> str:
        """A command on an input; with other bytes of pools it needs files that have them."""
        lower = self.pools.lower_for(start) if self.pools else self.lower
        if lower is None:
            return f'with --pools FOLDER, for {amount(len(start), "other byte")} of the pools'
        lower = [word for word in lower if word != FROM_INPUT or not self.has_words]
        return shlex.join(
            [
                "hippo-c",
                name,
                *self.files,
                *lower,
                *self.boundaries,
                *self.input(numbers),
                *words,
                *self.arguments(numbers),
                *self.clang,
            ]
        )

    def split(self, numbers: list[int]) -> tuple[list[str], list[int]]:
        """The words of the command line in an input, and its other numbers."""
        return decoded(numbers) if self.has_words else ([], numbers)

    def input(self, numbers: list[int]) -> list[str]:
        """The option with the numbers."""
        left = self.split(numbers)[1]
        return ["--input", *map(str, left)] if left else []

    def arguments(self, numbers: list[int]) -> list[str]:
        """The option with the words of the command line."""
        return ["--args", *self.split(numbers)[0]] if self.has_words else []

    def words(self, numbers: list[int]) -> str:
        """An input as the options that give it."""
        return shlex.join([*self.input(numbers), *self.arguments(numbers)]) or "--input"
