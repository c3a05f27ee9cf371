"""Runs after power cuts that follow one another: each run is one of hippo, from the image that the cut before it leaves."""
from __future__ import annotations

import argparse
import itertools
import re
from dataclasses import dataclass

from . import running
from .crash_answers import LARGEST_IMAGE, meaning, with_image
from .debuginfo import plain
from .diagnostics import Printer, print_calls, print_merged
from .hooked import last_name
from .program import REGION_BASE, Program
from .program_tables import PRINTS_BEFORE
from .session import Session
from .traces import pieces
from .traps import find_trap
from .trouble import Trouble
from .writing import whole_file

HEADER = ("START", "REGISTER", "INPUT", "IMAGE")
ENDED = (0, running.TRAPPED, running.CUT)
# How a run ends that has left its recovery behind: this is no failure.
PAST_INPUT = "trap input"
MOST_CALLS = 4


@dataclass
class Crash:
    """A crash as the words of hippo name it: the entry of the trace after which it comes, and the picks."""

    entry: int
    picks: tuple[tuple[int, int], ...]


class Following:
    """Runs one after another, each but the first from an image. `told` is what hippo_prints returns in them."""

    def __init__(self, session: Session, path: str, numbers: list[int], limit: int | None, told: int = 0) -> None:
        self.session, self.path, self.numbers, self.told = session, path, numbers, told
        self.limit = ["--limit", str(limit)] if limit is not None else []
        self.text, self.ended, self.level = session.text_path, running.Ended(0, ""), 0

    def header(self) -> int:
        """The number of entries before the first step of the last run."""
        return count_of_header(self.path)

    def crash(self, crash: Crash) -> bool:
        """Makes the next run; whether hippo makes the image."""
        self.level += 1
        out = self.session.file(f"after.{self.level}.trace")
        words = ["crash", self.text, self.path, str(crash.entry), *(f"{line}:{upto}" for line, upto in crash.picks)]
        with whole_file(out) as file:
            self.ended = running.finish(running.start([running.hippo_program(), *words], stdout=file))
        if self.ended.code not in ENDED:
            return False
        self.path = out
        return not self.told or self.run_told()

    def program(self, path: str = "") -> Program | None:
        """The program that begins with the image of the last run, or of the run of another trace, with that number; nothing if the image is too
        large for a text."""
        if self.session.program.region_size() > LARGEST_IMAGE:
            return None
        changed = with_image(
            self.session.program, image_of_trace(path or self.path, self.session.program.region_size())
        )
        changed.head = [told_line(line, self.told) for line in changed.head]
        return changed

    def run_told(self) -> bool:
        """Makes the last run again, with the number that hippo_prints returns."""
        program = self.program()
        if program is None:
            return False
        self.text = self.session.file(f"after.{self.level}.ll")
        with whole_file(self.text) as file:
            file.write(plain(program).encode("latin-1"))
        self.path = self.session.file(f"told.{self.level}.trace")
        self.ended = running.hippo(["record", self.text, *self.limit, "--", *map(str, self.numbers)], self.path, ENDED)
        return True


def told_line(line: str, told: int) -> str:
    """The line of a global, with the number that hippo_prints returns."""
    name = re.match(r"@([-\w$.]+) = global i64 0\b", line, re.ASCII)
    return (
        line.replace("global i64 0", f"global i64 {told}", 1) if name and last_name(name[1]) == PRINTS_BEFORE else line
    )


def count_of_header(path: str) -> int:
    """The number of entries of a trace before the first step of its run."""
    return sum(1 for _ in itertools.takewhile(lambda entry: entry.startswith(HEADER), pieces(path)))


def image_of_trace(path: str, size: int) -> bytearray:
    """The bytes of the region at the start of a trace's run."""
    image = bytearray(size)
    for entry in pieces(path):
        if not entry.startswith(HEADER):
            break
        if entry.startswith("IMAGE"):
            _, address, digits = entry.split(";")
            at = int(address, 16) - REGION_BASE
            image[at : at + 64] = bytes.fromhex(digits)
    return image


def crashes_of(options: argparse.Namespace, first: int) -> list[Crash]:
    """The crashes of `--pick` and of each `--then`."""
    found = [Crash(first, picks_of(options.picks))]
    for words in options.then:
        if not re.fullmatch(r"[0-9]{1,18}", words[0]):
            raise Trouble(f"--then {words[0]}: not the number of an entry")
        found.append(Crash(int(words[0]), picks_of(words[1:])))
    return found


def picks_of(words: list[str]) -> tuple[tuple[int, int], ...]:
    """Picks as `LINE:UPTO`."""
    if strange := [pick for pick in words if not re.fullmatch(r"[0-9]{1,18}:[0-9]{1,18}", pick)]:
        raise Trouble(f"--pick {strange[0]}: not LINE:UPTO")
    return tuple((int(line), int(upto)) for line, upto in (word.split(":") for word in words))


def follow(
    options: argparse.Namespace, session: Session, printer: Printer, path: str, recorded: str, first: int
) -> int:
    """Makes the runs of the words, and shows how the last one ends: 1 if it fails."""
    request = session.request
    following = Following(session, path, request.inputs[0], request.limit, options.prints)
    for crash in crashes_of(options, first):
        if not following.crash(crash):
            running.accept(["crash"], following.ended)
    ended = following.ended.how
    fails = ended != PAST_INPUT and (not ended.startswith("stop") or (options.status and ended != recorded))
    session.progress.wipe()
    cuts = "power cut" if following.level == 1 else f"{following.level} power cuts"
    if not fails:
        how = "reads past its input" if ended == PAST_INPUT else f"ends well: {ended}"
        printer.line(f"after {cuts} the next run {how}")
        return 0
    printer.diagnostic(None, "error", f"after {cuts} the next run fails: {meaning(ended)}")
    program = following.program()
    trap = find_trap(program, request.inputs[0], ended.split(" ")[1]) if program and ended.startswith("trap") else None
    places = session.places.along(trap.path) if trap else []
    for place in places[:1]:
        printer.diagnostic(place, "note", "the run from that image ends here", True)
        print_merged(printer, place)
    print_calls(printer, places, MOST_CALLS)
    return 1
