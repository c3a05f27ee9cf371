#!/usr/bin/env python3
"""Seeded bugs in libpmemobj and its maps (bugs.py): what finds each, and whether the repair of what is reported leaves nothing.

Each bug is on or off by a number in the lowered text (seeding.py). In this order are tried: checks at the return of main; when each call of
the API of a map returns; at commit points of libpmemobj and of a map; and power cuts, in the operations on a pool that is there and in
its creation. A check finds a bug if stores of some kind and place are reported more often than without it, on the same input; a power cut
finds it if hippo confirms a run that fails. It prints a table. The exit code is 1 if a repair leaves a report, or if a bug that ran
was not found and bugs.py does not say why it is equivalent."""
from __future__ import annotations

import hashlib
import os
import re
import sys
import tempfile
from collections import Counter

sys.dont_write_bytecode = True
HERE = os.path.dirname(os.path.abspath(__file__))
TOOLS = os.path.abspath(os.path.join(HERE, "../../.."))
sys.path[:0] = [HERE, os.path.dirname(HERE), TOOLS]
from hippo_c import boundaries, commits  # noqa: E402
from hippo_c.places import Places  # noqa: E402
from hippo_c.program import Program, parse_site  # noqa: E402
from steps import run  # noqa: E402

from bugs import BUGS, Bug  # noqa: E402
from cutting import Cutting  # noqa: E402
from seeding import seeded, with_bug  # noqa: E402
from work import (  # noqa: E402
    ANY_CODE,
    MAP_NAMES,
    MAPS,
    Work,
    arguments_of,
    ended,
    map_input,
    options_of,
    print_head,
    print_row,
    setting_of,
    source_of,
)

API = "map_insert,map_remove,map_create,pmemobj_alloc,pmemobj_free"
# Where libpmemobj commits: the start of these functions, which make a log valid, apply it or clear it, or publish an object; the end of what
# writes an undo entry; and the stores of a header of a run, of a zone, and of the mark that the count of hashmap_atomic is right.
COMMITS = (
    "ulog_store,operation_process,palloc_publish,ulog_clobber,ulog_clobber_data,ulog_inc_gen_num,memblock.c:1432,heap.c:574,"
    "hashmap_atomic.c:255"
)
UNDO = "ulog_entry_buf_create"
CHECKS: dict[str, list[boundaries.Boundary]] = {
    "check": [],
    "--check-return": [boundaries.boundary_of(boundaries.RETURN, word) for word in API.split(",")],
    "--commit": [
        boundaries.boundary_of(boundaries.RETURN, UNDO),
        *(boundaries.Boundary(commits.OPTION, word, re.compile(word), "", "") for word in COMMITS.split(",")),
    ],
}
OPERATIONS, FEW, SPARES = 60, 6, 5
SECONDS = 8
NOT_FOUND = "equivalent"
HEADINGS = ("bug", "place", "what is lost", "map", "found by", "new reports", "after the repair", "how")
# What is missing of a store, and the places along its path.
Kinds = Counter[tuple[str, tuple[str, ...]]]


class Checked:
    """The seeded text with the checks of one kind, and what the runs without a bug report."""

    def __init__(self, bugs: Bugs, name: str) -> None:
        self.bugs, self.name = bugs, name.strip("-")
        self.text = boundaries.Placing(bugs.text, CHECKS[name]).placed() if CHECKS[name] else bugs.text
        self.places = Places(Program(self.text))
        self.clean: dict[int, tuple[Kinds, str]] = {}

    def reports(self, text: str, numbers: list[int]) -> tuple[Kinds, str]:
        """The kinds and places of the reports of a run, and what identifies its trace."""
        hippo, path, trace = self.bugs.hippo, self.path("ll"), self.path("trace")
        with open(path, "w", encoding="latin-1") as file:
            file.write(text)
        done = run([hippo, "record", path, "--", *map(str, numbers)], self.bugs.folder, codes=ANY_CODE)
        with open(trace, "w", encoding="ascii") as file:
            file.write(done.stdout)
        found: Kinds = Counter()
        for line in run([hippo, "check", path, trace], self.bugs.folder).stdout.splitlines():
            sites = tuple(map(parse_site, line.rpartition("path ")[2].split(" ")))
            found[line.split(" ")[1], tuple(map(str, self.places.along(sites)))] += 1
        return found, hashlib.sha256(f"{done.stdout} {ended(done)}".encode()).hexdigest()

    def path(self, end: str) -> str:
        """A file of the run."""
        return f"{self.bugs.folder}/bug.{self.name}.{end}"

    def new(self, bug: Bug) -> int | None:
        """The number of new reports with a bug; nothing if the run does not reach it."""
        numbers = map_input(bug.map, OPERATIONS, spares=SPARES)
        if bug.map not in self.clean:
            self.clean[bug.map] = self.reports(self.text, numbers)
        known, mark = self.clean[bug.map]
        found, own = self.reports(with_bug(self.text, bug), numbers)
        return None if own == mark else (found - known).total()

    def after(self) -> str:
        """The number of reports after the repair of the last run."""
        words = [self.bugs.hippo, "rerun", self.path("ll"), self.path("trace")]
        said = run(words, self.bugs.folder, codes=ANY_CODE).stderr
        found: list[str] = re.findall(r"^after (\d+)$", said, re.M)
        return found[0] if found else "refused"


class Bugs:
    """The seeded text, its checks, and its engines: from a pool that is there, and from none."""

    def __init__(self, work: Work) -> None:
        self.work, self.folder, self.hippo = work, work.folder, work.setting.hippo
        self.text, self.counts = seeded(work.lowered(MAPS, "--lines"))
        self.checks: dict[str, Checked] = {}
        self.cuttings: dict[bool, tuple[str, Cutting]] = {}

    def check(self, name: str) -> Checked:
        """The checks of a kind."""
        if name not in self.checks:
            self.checks[name] = Checked(self, name)
        return self.checks[name]

    def cutting(self, has_pool: bool) -> tuple[str, Cutting]:
        """The text that starts from a created pool, or from none, and its engine."""
        if has_pool not in self.cuttings:
            text = self.text
            if has_pool:
                pool = f"{self.folder}/created.pool"
                self.work.answer("pool", MAPS, "--input", "7", "--of", "data.pool", "-o", pool)
                text, _ = seeded(self.work.lowered(MAPS, "--lines", options=options_of(pool)))
            self.cuttings[has_pool] = (text, Cutting(text, f"{self.folder}/cut.{has_pool}", self.hippo))
        return self.cuttings[has_pool]

    def row(self, bug: Bug) -> tuple[str, ...]:
        """The row of a bug."""
        place = f"{os.path.basename(bug.file)}:{bug.line}" if bug.line else os.path.basename(bug.file)
        head = (bug.name, place, bug.what, MAP_NAMES[bug.map])
        if not self.counts[bug.name]:
            return (*head, "no call at this line", "", "", "")
        for name in CHECKS:
            new = self.check(name).new(bug)
            if new is None:
                return (*head, "not executed", "", "", "")
            if new:
                return (*head, name, str(new), self.check(name).after(), "")
        return (*head, *self.cut(bug))

    def cut(self, bug: Bug) -> tuple[str, str, str, str]:
        """What power cuts find of a bug; without a failure, why it is equivalent in these runs."""
        number, tried = BUGS.index(bug) + 1, []
        for has_pool in (True, False):
            text, cutting = self.cutting(has_pool)
            numbers = map_input(bug.map, OPERATIONS if has_pool else FEW, spares=SPARES if has_pool else 2)
            found = cutting.found(number, numbers, SECONDS)
            where = "in the operations" if has_pool else "in the creation"
            for failure in found.failures.values():
                if last := cutting.confirmed(failure, with_bug(text, bug), numbers):
                    return "crash", "", "", f"{last} after a power cut {where}"
            tried.append(f"{found.summary.get('images', 0):,} images {where}")
        return NOT_FOUND if bug.why else "NOT FOUND", "", "", f"{bug.why or '?'}; {' and '.join(tried)} recover"


def main() -> int:
    """Tries each bug; returns 0 if all are found or equivalent, and no repair leaves a report."""
    options = arguments_of(__doc__).parse_args()
    print_head(HEADINGS)
    rows = []
    with tempfile.TemporaryDirectory() as scratch:
        bugs = Bugs(Work(source_of(options), setting_of(options, scratch)))
        for bug in BUGS:
            if not options.names or bug.name in options.names:
                rows.append(bugs.row(bug))
                print_row(rows[-1])
    counts = Counter(row[4] for row in rows)
    print(f"{len(rows)} bugs: " + ", ".join(f"{count} {name}" for name, count in counts.most_common()))
    return 0 if not counts["NOT FOUND"] and all(row[6] in ("", "0") for row in rows) else 1


if __name__ == "__main__":
    sys.exit(main())
