"""Lowers a program, records its runs and checks them; its files are in one folder."""
from __future__ import annotations

import contextlib
import os
import tempfile
from collections.abc import Iterable
from dataclasses import dataclass, field
from functools import cached_property
from typing import TYPE_CHECKING

from lowering.languages import is_source
from lowering.objects import is_object

from . import marking, running, sources
from .boundaries import Check, Placing
from .coverage import Coverage, coverage_of
from .declared import Declarations, Declared
from .helpers import Helpers
from .names import Names
from .paths import Path, Paths
from .places import Place, Places
from .program import Program, Site
from .progress import Progress
from .reports import Group, grouped, joined
from .request import Request
from .suppressions import Suppressed, Suppressions, are_mentioned
from .traces import Trace, read_trace
from .traps import Trap, find_trap
from .trouble import Trouble
from .writing import whole_file

if TYPE_CHECKING:
    from .flush_notes import FlushNote

MOST_MARKS = 50_000_000


@dataclass
class Checked:
    """What a check of one input found; `left_out` counts the groups and reports that a baseline knows."""

    numbers: list[int]
    path: str
    groups: list[Group]
    trace: Trace
    ended: str
    check_sites: dict[int, Site] = field(default_factory=dict)
    trap: Trap | None = None
    coverage: Coverage | None = None
    idle: list[str] = field(default_factory=list)
    is_crashed: bool = False
    left_out: tuple[int, int] = (0, 0)
    declared: list[Declared] = field(default_factory=list)
    suppressed: list[Suppressed] = field(default_factory=list)
    flush_notes: dict[int, FlushNote] = field(default_factory=dict)

    @property
    def reports(self) -> int:
        """The number of reports in all groups."""
        return sum(group.count for group in self.groups)

    @property
    def left_out_groups(self) -> list[Group]:
        """The groups of reports that the program itself leaves out."""
        declared = [group for item in self.declared for group in item.groups]
        return declared + [group for item in self.suppressed for group in item.groups]


@dataclass(frozen=True)
class Lowered:
    """A lowered program: its instructions, its places and names in C, the notes of tools/lower, the checks at boundaries, and the path of
    the text in which requests to Valgrind are marked; an empty path if the program has none."""

    program: Program
    places: Places
    names: Names
    notes: str
    boundary_checks: dict[Site, Check]
    requests: str


class Session:
    """The lowered program of a request and the checks of its inputs."""

    def __init__(self, request: Request, progress: Progress) -> None:
        self.request, self.progress = request, progress
        self.room = contextlib.ExitStack()
        self.folder = request.folder or self.new_folder()
        self.text_path = self.file("program.ll")
        self.paths = Paths()
        self.digests: dict[Path, str] = {}
        try:
            lowered = self.lower()
            self.program, self.places, self.names = lowered.program, lowered.places, lowered.names
            self.lower_notes, self.boundary_checks = lowered.notes, lowered.boundary_checks
            self.declarations = Declarations(self, lowered.requests) if lowered.requests else None
            heeds = request.heeds_suppressions and are_mentioned(self)
            self.suppressions = Suppressions(self) if heeds else None
        except BaseException:
            self.room.close()
            raise

    @cached_property
    def helpers(self) -> Helpers:
        """The functions of the user's that only flush and fence."""
        return Helpers(self.places)

    def __enter__(self) -> Session:
        return self

    def __exit__(self, *_: object) -> None:
        self.room.close()

    def file(self, name: str) -> str:
        """The path of a file in the folder."""
        return os.path.join(self.folder, name)

    def new_folder(self) -> str:
        """A folder for files that are not kept, and that nobody else can write to."""
        return self.room.enter_context(tempfile.TemporaryDirectory(prefix="hippo-c-"))

    def fresh_file(self, name: str) -> str:
        """The path of a file in the folder that is not there yet."""
        path = self.file(name)
        with contextlib.suppress(FileNotFoundError):
            os.unlink(path)
        return path

    def lower(self) -> Lowered:
        """Makes the lowered text and reads it."""
        for file in self.request.files:
            if os.path.isdir(file):
                raise Trouble(f"{file}: this is a folder", "name its C files, or the folder of a build by -p")
            if not os.path.isfile(file):
                raise Trouble(f"{file}: no such file")
            if not is_source(file) and not file.endswith(".ll") and not is_object(file):
                raise Trouble(
                    f"{file}: not a .c, .cpp or .ll file, nor an object of hippo-c cc",
                    "arguments for clang stand after --",
                )
        if self.request.expand:
            given = [file for file in self.request.files if is_source(file)]
            self.request.clang += sources.expand_macros(given, self.request.clang_of, running.TOOLS, self.folder)
        self.progress.say("lowering")
        requests = self.fresh_file("requests.ll") if self.request.wants_declared else ""
        notes = running.lower(self.request, self.text_path, requests)
        if requests and not os.path.exists(requests):
            requests = ""
        checks: dict[Site, Check] = {}
        if self.request.boundaries:
            checks = self.place_boundaries(self.text_path)
            if requests:
                self.place_boundaries(requests)
        with open(self.text_path, encoding="latin-1") as text:
            program = Program(text.read())
        texts = [file for file in self.request.files if file.endswith(".ll")]
        names = Names(program, [*self.request.sources(), *texts], self.request.clang_of, running.TOOLS)
        sources.take_from(names.compiled_files)
        return Lowered(program, Places(program), names, notes, checks, requests)

    def place_boundaries(self, path: str) -> dict[Site, Check]:
        """Puts the checks at boundaries into a lowered text; their sites."""
        with open(path, encoding="latin-1") as file:
            placing = Placing(file.read(), self.request.boundaries)
        text = placing.placed()
        with whole_file(path) as out:
            out.write(text.encode("latin-1"))
        return placing.checks

    def limit_words(self) -> list[str]:
        """The words that give hippo the limit of turns."""
        return ["--limit", str(self.request.limit)] if self.request.limit is not None else []

    def record(self, numbers: list[int], name: str) -> tuple[str, running.Ended]:
        """Writes the trace of the run on these numbers; its path, and how the run ended."""
        path = self.file(name)
        words = ["record", self.text_path, *self.limit_words(), "--", *map(str, numbers)]
        with self.progress.growing("recording"):
            ended = running.hippo(words, path, (0, running.TRAPPED, running.CUT), self.progress.watch)
        return path, ended

    def check(self, numbers: list[int], name: str = "program.trace", coverage: bool = True) -> Checked:
        """Records a run and brings what hippo reports of it into groups."""
        path, ended = self.record(numbers, name)
        self.progress.say("checking")
        lines: Iterable[str] = self.progress.counted(
            running.lines_of(["check", self.text_path, path]), "checking", "reports"
        )
        declared: list[Declared] = []
        suppressed: list[Suppressed] = []
        if self.declarations and (reported := list(lines)):
            lines, declared = self.declarations.split(reported, numbers, path)
        if self.suppressions and (reported := list(lines)):
            lines, suppressed = self.suppressions.split(reported, path)
        groups = joined(grouped(lines, self.paths), lambda site: bool(self.places.of(site)))
        checked = Checked(numbers, path, groups, Trace(), ended.how, declared=declared, suppressed=suppressed)
        shown = [*groups, *checked.left_out_groups]
        checked.trace = read_trace(path, self.program, {group.entry for group in shown})
        if kind := ended.word("trap"):
            self.progress.say("looking for the trap")
            checked.trap = find_trap(self.program, numbers, kind)
        checked.check_sites = self.check_sites(checked)
        if coverage and ended.code != running.CUT:
            self.note_what_ran(checked)
        return checked

    def check_place(self, checked: Checked, entry: int) -> Place | None:
        """The place of a check that a group names, by the number of its entry."""
        site = checked.check_sites.get(entry)
        return self.places.first((site,)) if site else None

    def check_sites(self, checked: Checked) -> dict[int, Site]:
        """The site of each check that a group names, by the number of its entry; the return of main is one of the checks."""
        wanted = {group.check for group in [*checked.groups, *checked.left_out_groups]}
        trace = checked.trace
        if not wanted:
            return {}
        sites = marking.only_sites(self.program, trace.asserts)
        if sites is None:
            self.progress.say("looking for the checks")
            sites = marking.sites_of_checks(self.program, checked.numbers, trace.asserts, checked.ended != "cut")
        numbered = dict(zip([*trace.assert_numbers, trace.entries], sites))
        return {number: numbered[number] for number in wanted if number in numbered}

    def note_what_ran(self, checked: Checked) -> None:
        """Notes the lines of the user's functions that ran, and which boundaries the run never met."""
        self.progress.say("counting lines")
        ran, whole = marking.blocks_that_ran(self.program, checked.numbers, MOST_MARKS)
        checked.coverage = coverage_of(self.places, ran, whole)
        met = {check.where for site, check in self.boundary_checks.items() if site[:2] in ran}
        if whole:
            checked.idle = sorted({check.where for check in self.boundary_checks.values()} - met)
