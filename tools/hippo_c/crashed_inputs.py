"""Inputs with power cuts: lines of a file of inputs such as `1 5 0; 23 2:1`, and the runs from what these cuts leave."""
from __future__ import annotations

import os
from collections.abc import Iterator
from dataclasses import dataclass

from . import running
from .following import ENDED, Crash, Following, picks_of
from .numbers import number_of, numbers_in
from .program import Site
from .reports import grouped, joined
from .session import Checked, Session
from .traces import read_trace
from .trouble import Trouble


@dataclass(frozen=True)
class CrashedInput:
    """An input, and the power cuts after which the program runs on it again; `where` is its line in a file."""

    numbers: list[int]
    crashes: list[Crash]
    where: str = ""

    def line(self) -> str:
        """The line of a file of inputs: the numbers, and for each power cut its entry and picks."""
        cuts = (
            " ".join([str(crash.entry), *(f"{line}:{upto}" for line, upto in crash.picks)]) for crash in self.crashes
        )
        return "; ".join([" ".join(map(str, self.numbers)), *cuts])


def rows_of(text: str, path: str) -> Iterator[CrashedInput]:
    """The lines of a file of inputs, those without a power cut among them."""
    for number, row in enumerate(text.rstrip("\n").split("\n"), 1):
        where = f"{path}:{number}"
        numbers, *cuts = row.split(";")
        yield CrashedInput(numbers_in(numbers, where), [crash_of(cut.split(), where) for cut in cuts], where)


def crash_of(words: list[str], where: str) -> Crash:
    """A power cut: its entry and picks."""
    if not words or not words[0].isdigit() or number_of(words[0]) < 1:
        raise Trouble(f'{where}: {" ".join(words)!r} is not a power cut: ENTRY LINE:UPTO..')
    return Crash(number_of(words[0]), picks_of(words[1:]))


def check_crashed(session: Session, given: CrashedInput, name: str) -> Checked:
    """The check of the run from what the power cuts leave."""
    path, _ = session.record(given.numbers, f"before.{name}")
    following = Following(session, path, given.numbers, session.request.limit)
    session.progress.say("running after a power cut")
    for crash in given.crashes:
        if not following.crash(crash):
            message = f"{given.where}: no power cut of this run leaves that image"
            raise Trouble(message, "the line was written for another text of the program: explore again")
    path = session.file(name)
    os.replace(following.path, path)
    return checked_trace(session, given.numbers, path, following.ended)


def checked_trace(session: Session, numbers: list[int], path: str, ended: running.Ended) -> Checked:
    """The check of a trace, without places of its checks."""

    def is_users(site: Site) -> bool:
        return bool(session.places.of(site))

    if ended.code not in ENDED:
        running.accept(["crash"], ended)
    groups = joined(grouped(running.lines_of(["check", session.text_path, path]), session.paths), is_users)
    trace = read_trace(path, session.program, {group.entry for group in groups})
    return Checked(numbers, path, groups, trace, ended.how, {}, is_crashed=True)
