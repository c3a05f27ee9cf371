"""What hippo's own runs say of a finding after power cuts. Nothing that the engine says of it is believed: neither that the run fails, nor
where, nor which stores are lost, nor how many numbers were printed before."""
from __future__ import annotations

import copy
import itertools
from dataclasses import dataclass, replace
from typing import TypeVar

from . import images, operations, running
from .crash_answers import with_image
from .debuginfo import plain
from .findings import Behaviour, Failure, Outputs, Refused, Report
from .following import ENDED, PAST_INPUT, Crash, Following, count_of_header, image_of_trace
from .hooked import last_name
from .numbers import DEFAULT_TURNS
from .pool_starts import Start
from .program import REGION_BASE, Program, Site
from .program_tables import PRINTS_BEFORE
from .ran import Ran, ran
from .session import Session
from .traces import pieces, read_trace
from .traps import find_trap
from .writing import whole_file

Finding = Report | Failure | Outputs | Refused | Behaviour
AtPlace = TypeVar("AtPlace", Failure, Behaviour)
# What a recovery may take: these turns, and for each byte of the region some more, and so many entries for each byte.
TURNS_OF_A_RECOVERY, TURNS_FOR_A_BYTE, TIMES_THE_REGION = 4_000_000, 16, 4


@dataclass
class Followed:
    """The runs of a finding: its crashes in the words of hippo, and the trace before each. `is_whole`: hippo made all of them."""

    crashes: list[Crash]
    traces: list[str]
    following: Following
    is_whole: bool

    @property
    def how(self) -> str:
        """How the last run ended."""
        return self.following.ended.how


class Judge:
    """Makes the runs of findings; its files are in the folder of the session. With `checks_status` main must return what it returned first."""

    def __init__(self, session: Session, checks_status: bool) -> None:
        self.session, self.checks_status = session, checks_status
        self.size = session.program.region_size()
        self.sessions: dict[Start, Session] = {(): session}
        self.recorded: tuple[list[int], int, Start] | None = None  # whose trace the file crashed.trace has
        self.first = running.Ended(0, "")  # how that run ended
        self.known: tuple[object, Ran] = ((), Ran())
        self.tells_prints = any(last_name(item.name) == PRINTS_BEFORE for item in session.program.globals)

    def at(self, start: Start) -> Session:
        """The session of the program with other bytes of its pools before a run."""
        if start not in self.sessions:
            path, _ = self.session.record([], "given.bytes.trace")
            image = image_of_trace(path, self.size)
            for offset, byte in start:
                image[offset] = byte
            session = self.sessions[start] = copy.copy(self.session)
            session.program = with_image(self.session.program, image)
            session.text_path = self.session.file(f"start.{len(self.sessions)}.ll")
            with whole_file(session.text_path) as file:
                file.write(plain(session.program).encode("latin-1"))
        return self.sessions[start]

    def follow(self, found: Finding, limit: int, is_asked: bool = False) -> Followed:
        """Makes the runs of a finding. hippo_prints returns in them how many numbers were printed before the first power cut, unless another
        number is asked for."""
        session, path = self.at(found.start), self.session.file("crashed.trace")
        if self.recorded != (found.numbers, limit, found.start):
            words = ["record", session.text_path, "--limit", str(limit), "--", *map(str, found.numbers)]
            self.first = running.hippo(words, path, ENDED)
            self.recorded = (found.numbers, limit, found.start)
        following = Following(session, path, found.numbers, limit, found.told)
        followed = Followed([], [], following, bool(found.cuts) and self.first.how != "cut")
        if not is_asked and followed.is_whole:
            followed.is_whole = self.may_be_told(found)
        for events, picks in found.cuts if followed.is_whole else ():
            followed.traces.append(following.path)
            followed.crashes.append(Crash(following.header() + events, picks))
            if not following.crash(followed.crashes[-1]):
                followed.is_whole = False
                break
        return followed

    def may_be_told(self, found: Finding) -> bool:
        """Whether the next run may learn that so many numbers were printed."""
        if not self.tells_prints:
            return found.told == 0
        return found.told in self.ran(found).printed_at(found.cuts[0][0])

    def ran(self, found: Finding) -> Ran:
        """The entries and prints of the run before all power cuts."""
        key = (found.numbers, found.start)
        if self.known[0] != key:
            self.known = (key, ran(self.at(found.start).program, self.size, found.numbers, 1 << 62))
        return self.known[1]

    def fails(self, followed: Followed, limit: int) -> bool:
        """Whether the last run is a failure: it traps, it does not end, or main returns another number. A run that reads past its input has
        left the recovery behind."""
        how = followed.how
        if how == "cut":
            return self.is_endless(followed, limit)
        if how.startswith("stop"):
            return self.checks_status and self.first.how.startswith("stop") and how != self.first.how
        return how.startswith("trap ") and how != PAST_INPUT

    def is_endless(self, followed: Followed, limit: int) -> bool:
        """Whether a run with this limit does not end: it has more turns than a recovery needs, or stores to each byte several times."""
        least = min(TURNS_OF_A_RECOVERY + TURNS_FOR_A_BYTE * self.size, self.session.request.limit or DEFAULT_TURNS)
        return limit >= least or sum(1 for _ in pieces(followed.following.path)) > TIMES_THE_REGION * self.size

    # ---- notes

    def lost(self, followed: Followed) -> set[tuple[int, int]]:
        """The addresses and sizes of the stores that the last image lacks."""
        crash = followed.crashes[-1]
        numbers = images.lost_stores(followed.traces[-1], images.Point(crash.entry, crash.picks))
        return set(read_trace(followed.traces[-1], self.session.program, set(numbers)).wanted.values())

    def has_true_notes(self, failure: Failure, followed: Followed) -> bool:
        """Whether the level, the lost stores and the place of the last power cut are those of hippo's runs."""
        lost = self.lost(followed)
        own = {(store.address, store.size) for store in failure.lost}
        if failure.level != len(failure.cuts) or not own <= lost or bool(own) != bool(lost):
            return False
        return failure.at[:1] == self.sites_at(failure, followed, "STORE")

    def sites_at(self, found: Failure | Outputs, followed: Followed, word: str) -> tuple[Site, ...]:
        """The site of the last entry of a kind before the last power cut, or of the last entry; nothing if there is none, or if the image is
        too large for a text."""
        path = followed.traces[-1]
        made = itertools.islice(pieces(path), count_of_header(path), followed.crashes[-1].entry)
        kinds = [text.startswith(word) for text in made]
        if not kinds:
            return ()
        at = len(kinds) - 1 - kinds[::-1].index(True) if True in kinds else len(kinds) - 1
        if len(followed.traces) == 1:
            entries = self.ran(found).entries
        else:
            program = followed.following.program(path)
            if program is None:
                return found.at[:1]
            entries = ran(program, self.size, found.numbers, at).entries
        return (entries[at],) if at < len(entries) else ()

    def has_true_reads(self, behaviour: Behaviour, followed: Followed) -> bool:
        """Whether the last run begins with the bytes that it is said to read."""
        image = image_of_trace(followed.following.path, self.size)
        for read in behaviour.reads:
            at = read.address - REGION_BASE
            if image[at : at + read.size] != read.value.to_bytes(read.size, "little"):
                return False
        return len(behaviour.cuts) == 1

    def with_own_path(self, found: AtPlace, followed: Followed) -> AtPlace | None:
        """The finding with the place where hippo's run traps, without a place if this is not known; nothing if the engine names another."""
        if not found.ended.startswith("trap"):
            return found
        program = followed.following.program()
        trap = find_trap(program, found.numbers, found.ended.split(" ")[1]) if program else None
        if trap and trap.path[0] != found.path[0]:
            return None
        return replace(found, path=trap.path if trap else ())

    # ---- acknowledged operations

    def lost_print(self, failure: Failure) -> tuple[int, Site] | None:
        """The first number whose print makes the next run fail: the next run does not fail if one number fewer was printed. Such a print
        acknowledged what the image lacks. Nothing if the run fails as well if nothing was printed."""

        def fails(told: int) -> bool:
            followed = self.follow(replace(failure, told=told), failure.limit, is_asked=True)
            return not followed.is_whole or self.fails(followed, failure.limit)

        least, most = failure.told - 1, failure.told
        if not failure.told:
            return None
        if fails(least):
            least, most = 0, least
            if not most or fails(0):
                return None
        while most - least > 1:
            middle = (least + most) // 2
            least, most = (least, middle) if fails(middle) else (middle, most)
        return most, self.ran(failure).prints[most - 1][1]

    def print_of(self, outputs: Outputs) -> tuple[int, Site]:
        """The print that acknowledged an operation."""
        return outputs.print_number, self.ran(outputs).prints[outputs.print_number - 1][1]

    def has_operation(self, outputs: Outputs, followed: Followed, resumed: Program) -> bool:
        """Whether the last entry before the power cut is that of the finding, the inputs of the other runs are those around an operation, and
        the print that acknowledged it may come before the cut."""
        first = self.ran(outputs)
        if outputs.is_acknowledged and not 0 < outputs.print_number < first.printed_at(outputs.cuts[0][0]).stop:
            return False
        is_there = outputs.at[:1] == self.sites_at(outputs, followed, "")
        return is_there and operations.are_true(outputs, first, self.at(outputs.start).program, resumed)
