"""What hippo confirms of the engine's findings: each report by a check of its input, each failure by runs from the same images."""
from __future__ import annotations

import os
from collections.abc import Iterable
from dataclasses import dataclass, field

from . import running
from .debuginfo import plain
from .findings import Behaviour, Failure, Found, Key, Outputs, Refused, Report, shortened
from .following import ENDED, Crash, image_of_trace
from .judging import Judge
from .numbers import DEFAULT_TURNS
from .pool_starts import Start
from .program import Site, parse_site
from .reports import Group
from .session import Checked, Session
from .writing import whole_file

MOST_EXAMPLES = 4


@dataclass
class ShownGroup:
    """A group over all inputs, with the check of its shortest input, and the crashes before that run."""

    group: Group
    checked: Checked
    inputs: int = 1
    start: Start = ()


@dataclass
class ShownFailure:
    """A failure that hippo confirmed; `lost_print` is the number of the print whose operation is lost, and its site, if that is why."""

    failure: Failure
    crashes: list[Crash]
    lost_print: tuple[int, Site] | None = None


@dataclass
class ShownOutputs:
    """Outputs after a crash that hippo confirmed: what the run printed, and what the runs without a crash print. `lost_print` is as for a
    failure."""

    outputs: Outputs
    crashes: list[Crash]
    printed: list[str]
    wanted: list[str]
    wanted_without: list[str]
    lost_print: tuple[int, Site] | None = None


@dataclass
class Confirmed:
    """What hippo confirmed, and how many findings it did not; whether an interrupt ended it."""

    groups: list[ShownGroup] = field(default_factory=list)
    failures: list[ShownFailure] = field(default_factory=list)
    after_crashes: list[tuple[Report, list[Crash]]] = field(default_factory=list)
    outputs: list[ShownOutputs] = field(default_factory=list)
    behaviours: list[tuple[Behaviour, list[Crash]]] = field(default_factory=list)
    trapping: list[int] | None = None
    refusing: Refused | None = None
    checked: int = 0
    refused: int = 0
    interrupted: bool = False


def keys_of(group: Group) -> Iterable[Key]:
    """The keys of the reports of a group."""
    return ((group.kind, group.flush, shortened(path)) for path in (group.path, *group.more))


class Confirming:
    """Confirms findings; the files of hippo's runs are in the folder of the session. With `checks_status` main must return the same number
    after a power cut."""

    def __init__(self, session: Session, checks_status: bool = False) -> None:
        self.session, self.answer = session, Confirmed()
        self.seen: set[Key] = set()
        self.judge = Judge(session, checks_status)
        self.by_user: dict[tuple[object, ...], ShownGroup] = {}

    def confirm(self, found: Found, given: list[list[int]]) -> Confirmed:
        """Confirms all findings. The given inputs are checked too, since their reports belong to the answer."""
        reports: dict[tuple[tuple[int, ...], Start], list[Report]] = {}
        for report in found.reports.values():
            if not report.cuts:
                reports.setdefault((tuple(report.numbers), report.start), []).append(report)
        inputs = {(tuple(numbers), ()) for numbers in given}
        for one in sorted({*inputs, *reports}, key=lambda one: (len(one[1]), len(one[0]), one)):
            claimed = {report.key for report in reports.get(one, [])}
            if one in inputs or claimed - self.seen:
                self.check(list(one[0]), one[1])
            self.answer.refused += len(claimed - self.seen)
        for failure in found.failures.values():
            self.confirm_failure(failure)
        for report in found.reports.values():
            if report.cuts and report.key not in self.seen:
                self.confirm_after_crash(report)
        for outputs in found.outputs.values():
            self.confirm_outputs(outputs)
        for behaviour in found.behaviours:
            self.confirm_behaviour(behaviour)
        self.find_examples(found)
        return self.answer

    def answer_for(self, found: Found, given: list[list[int]]) -> Confirmed:
        """Confirms findings until an interrupt. The answer has what was confirmed."""
        try:
            self.confirm(found, given)
        except KeyboardInterrupt:
            self.answer.interrupted = True
        return self.answer

    def check(self, numbers: list[int], start: Start) -> None:
        """Checks an input by hippo, and takes in its groups."""
        checked = self.judge.at(start).check(numbers, "explored.trace", coverage=False)
        self.answer.checked += 1
        for group in checked.groups:
            self.seen.update(keys_of(group))
            key = self.user_key(group)
            if key in self.by_user:
                self.by_user[key].inputs += 1
            else:
                self.by_user[key] = ShownGroup(group, checked, start=start)
                self.answer.groups.append(self.by_user[key])

    def user_key(self, group: Group) -> tuple[object, ...]:
        """What makes two groups one for the user: the kind, the flush, and the path from the user's innermost function outwards."""
        start = next((level for level, site in enumerate(group.path) if self.session.places.of(site)), 0)
        return group.kind, group.flush, shortened(group.path[start:]), start > 0

    # ---- crashes

    def confirm_failure(self, failure: Failure) -> None:
        """Shows a failure if the run from the image fails in hippo as in the engine."""
        followed = self.judge.follow(failure, failure.limit)
        is_one = followed.is_whole and followed.how == failure.ended and self.judge.fails(followed, failure.limit)
        own = (
            self.judge.with_own_path(failure, followed)
            if is_one and self.judge.has_true_notes(failure, followed)
            else None
        )
        if own is None:
            self.answer.refused += 1
        else:
            self.answer.failures.append(ShownFailure(own, followed.crashes, self.judge.lost_print(failure)))

    def confirm_behaviour(self, behaviour: Behaviour) -> None:
        """Keeps a behaviour if the run from its image ends in hippo as in the engine, and reads what is in the image."""
        followed = self.judge.follow(behaviour, behaviour.limit)
        is_one = (
            followed.is_whole
            and followed.how == behaviour.ended
            and self.judge.fails(followed, behaviour.limit) == behaviour.is_failing
            and self.judge.has_true_reads(behaviour, followed)
        )
        own = self.judge.with_own_path(behaviour, followed) if is_one else None
        if own is None:
            self.answer.refused += 1
        else:
            self.answer.behaviours.append((own, followed.crashes))

    def confirm_after_crash(self, report: Report) -> None:
        """Shows a report of a run from an image if `hippo check` of that run has it."""
        followed = self.judge.follow(report, report.limit or self.session.request.limit or DEFAULT_TURNS)
        following = followed.following
        if followed.how != "cut":
            report.limit = None
        is_run = followed.is_whole and following.ended.code in ENDED
        lines = running.lines_of(["check", following.text, following.path]) if is_run else []
        if any(key_of_line(line) == report.key for line in list(lines)):
            self.answer.after_crashes.append((report, followed.crashes))
            self.seen.add(report.key)
        else:
            self.answer.refused += 1

    def find_examples(self, found: Found) -> None:
        """The shortest input that traps, and the shortest one that leaves a refused state, if hippo's runs end so too."""
        traps = (
            numbers
            for numbers in sorted(found.trapped, key=short_first)[:MOST_EXAMPLES]
            if self.session.record(numbers, "explored.trace")[1].how.startswith("trap")
        )
        refused = (
            one
            for one in sorted(found.refused, key=lambda one: short_first(one.numbers))[:MOST_EXAMPLES]
            if self.is_refused(one)
        )
        self.answer.trapping, self.answer.refusing = next(traps, None), next(refused, None)

    def is_refused(self, one: Refused) -> bool:
        """Whether the next run fails from what the run leaves, although nothing is lost."""
        followed = self.judge.follow(one, one.limit)
        is_one = followed.is_whole and followed.how == one.ended and self.judge.fails(followed, one.limit)
        return is_one and not self.judge.lost(followed)

    def printed(self, text: str, numbers: list[int], skip: int) -> list[str]:
        """What hippo prints for a run, without the first prints."""
        words = ["run", text, "--", *map(str, numbers)]
        return list(running.lines_of(words, (0, running.TRAPPED)))[skip:]

    def confirm_outputs(self, outputs: Outputs) -> None:
        """Shows outputs if the runs of hippo differ in the same way."""
        followed = self.judge.follow(outputs, self.session.request.limit or DEFAULT_TURNS)
        is_run = followed.is_whole and followed.following.ended.code in ENDED
        program = followed.following.program() if is_run else None
        if program is None or not self.judge.has_operation(outputs, followed, program):
            self.answer.refused += 1
            return
        text = self.session.file("resumed.ll")
        with whole_file(text) as file:
            file.write(plain(program).encode("latin-1"))
        printed = self.printed(text, outputs.resumed, outputs.skips[2])
        first = self.judge.at(outputs.start).text_path
        wanted = self.printed(first, outputs.numbers, outputs.skips[0])
        other = wanted if outputs.is_acknowledged else self.printed(first, outputs.without, outputs.skips[1])
        if printed in (wanted, other):
            self.answer.refused += 1
            return
        lost = self.judge.print_of(outputs) if outputs.is_acknowledged else None
        self.answer.outputs.append(ShownOutputs(outputs, followed.crashes, printed, wanted, other, lost))


def short_first(numbers: list[int]) -> tuple[int, list[int]]:
    """The order in which short inputs come first."""
    return len(numbers), numbers


def key_of_line(line: str) -> Key:
    """The key of a line of `hippo check`."""
    words = line.split(" ")
    flush: Site | None = parse_site(words[words.index("flush", 2) + 1]) if "flush" in words[2:] else None
    path = tuple(map(parse_site, words[words.index("path") + 1 :]))
    return words[1], flush, shortened(path)


def same_trace(one: str, other: str) -> bool:
    """Whether two traces are equal, byte by byte."""
    if os.path.getsize(one) != os.path.getsize(other):
        return False
    with open(one, "rb") as first, open(other, "rb") as second:
        while True:
            piece = first.read(1 << 20)
            if piece != second.read(1 << 20):
                return False
            if not piece:
                return True
