#!/usr/bin/env python3
"""TX_ADDs of PMDK's maps, each taken away alone: whether hippo-c explore finds it from an input of two operations on a pool that exists.

All are tried by one engine: each call goes through a function that leaves it out if its number is that of a global, whose value is
changed in the engine. A bug counts as found if a store of the maps is reported that is not reported without the bug, and `hippo check`
reports it too. Names are those of maps. It prints a table; the exit code is 1 if hippo does not confirm a report."""
from __future__ import annotations

import os
import re
import shutil
import subprocess
import sys
import tempfile
from dataclasses import dataclass

sys.dont_write_bytecode = True
HERE = os.path.dirname(os.path.abspath(__file__))
TOOLS = os.path.abspath(os.path.join(HERE, "../../.."))
sys.path[:0] = [HERE, os.path.dirname(HERE), TOOLS]
from hippo_c.confirming import key_of_line  # noqa: E402
from hippo_c.engine_lines import Reader  # noqa: E402
from hippo_c.findings import Report  # noqa: E402
from hippo_c.native import Engine  # noqa: E402
from hippo_c.places import Places  # noqa: E402
from hippo_c.program import Program  # noqa: E402
from steps import Setting, run  # noqa: E402

from library import EXAMPLE  # noqa: E402
from work import (
    MAP_NAMES,
    Piece,
    Work,
    arguments_of,
    options_of,
    print_head,
    print_row,
    setting_of,
    source_of,
)  # noqa: E402

PIECE = Piece("opened_maps", needs_maps=True)
# The value of the global in the text: no number of a call.
NONE = 0x5EED_0F_CA11_0FF
CALL = re.compile(r"  (%\S+) = call i32 @(pmemobj_tx_x?add_range(?:_direct)?)\((.*)\) ; (.*)")
FILES = {"btree_map": 0, "ctree_map": 1, "rbtree_map": 2, "hashmap_tx": 3, "skiplist_map": 6}
GREATEST = 255  # key
SECONDS = 5
SECONDS_WITHOUT = 20
HEADINGS = ("TX_ADD", "map", "found at", "processor seconds", "inputs", "confirmed")


@dataclass
class Removed:
    """A call that is left out: its number, its place in C, and the map whose operations are tried."""

    number: int
    place: str
    kind: int

    def numbers(self) -> list[int]:
        """An input of two operations: an insertion and a removal."""
        return [self.kind, 1, 5, 2, 5, 0]


def wrapper(callee: str, arguments: str) -> str:
    """The function that calls another one unless the number of the call is that of the global."""
    types = [part.split(" ")[0] for part in arguments.split(", ")]
    given = ", ".join(f"{type_} %a{index}" for index, type_ in enumerate(types))
    return (
        f"define i32 @removable.{callee}(i64 %number, {given}) {{\nentry:\n  %removed = load i64, ptr @removed_call\n"
        f"  %is = icmp eq i64 %removed, %number\n  br i1 %is, label %no, label %yes\nyes:\n"
        f"  %status = call i32 @{callee}({given})\n  ret i32 %status\nno:\n  ret i32 0\n}}"
    )


def removable(text: str) -> tuple[str, list[Removed]]:
    """The text in which each TX_ADD of the maps can be left out, and all of them."""
    lines, found, wrappers = text.split("\n"), list[Removed](), dict[str, str]()
    for index, line in enumerate(lines):
        call = CALL.fullmatch(line)
        place = re.search(rf"/{EXAMPLE}/\S*/(\w+)\.c:(\d+):\d+$", call[4]) if call else None
        if not call or not place or place[1] not in FILES:
            continue
        found.append(Removed(len(found) + 1, f"{place[1]}.c:{place[2]}", FILES[place[1]]))
        wrappers[call[2]] = wrapper(call[2], call[3])
        lines[index] = f"  {call[1]} = call i32 @removable.{call[2]}(i64 {len(found)}, {call[3]}) ; {call[4]}"
    first = next(index for index, line in enumerate(lines) if line.startswith("define "))
    lines[first:first] = [f"@removed_call = global i64 {NONE}", *wrappers.values()]
    return "\n".join(lines), found


class Trying:
    """The engine of the program with all calls, and what it reports then."""

    def __init__(self, text: str, setting: Setting) -> None:
        self.text, self.setting, self.program = text, setting, Program(text)
        self.engine, self.places = Engine(self.program, setting.scratch), Places(self.program)
        self.known: set[tuple[str, str]] = set()

    def place(self, report: Report) -> tuple[str, str]:
        """The kind of a report, and the place of its store in a map; no place if it is elsewhere."""
        along = [str(place) for place in self.places.along(report.key[2][:1])]
        return report.key[0], next((place for place in along if any(f"{name}." in place for name in FILES)), "")

    def search(self, number: int, numbers: list[int], seconds: int) -> tuple[Report | None, float]:
        """The first report that is new, and the processor time until then; without a call that is left out, all are noted."""
        path = f"{self.setting.scratch}/{number}.engine"
        with open(self.engine.path, "rb") as file:
            content = file.read()
        before = NONE.to_bytes(8, "little")
        assert content.count(before) == 1
        with open(path, "wb") as file:
            file.write(content.replace(before, (number or NONE).to_bytes(8, "little")))
        shutil.copymode(self.engine.path, path)
        options = f"--time {seconds} --crashes 0 --given 1 --least 0 --greatest {GREATEST}".split()
        words = self.engine.words("explore", numbers, *options)
        process = subprocess.Popen([path, *words[1:]], stdout=subprocess.PIPE, text=True)
        try:
            for line in process.stdout or ():
                if not line.startswith("report "):
                    continue
                reader = Reader(self.engine.sites)
                reader.take(line.rstrip("\n"))
                report = next(iter(reader.found.reports.values()))
                if number and self.place(report)[1] and self.place(report) not in self.known:
                    return report, processor_seconds(process.pid)
                if not number:
                    self.known.add(self.place(report))
            return None, seconds
        finally:
            process.kill()
            process.wait()
            os.unlink(path)

    def is_confirmed(self, removed: Removed, report: Report) -> bool:
        """Whether `hippo check` has the report on its input."""
        folder = self.setting.scratch
        text, trace = f"{folder}/removed.ll", f"{folder}/removed.trace"
        with open(text, "w", encoding="latin-1") as file:
            file.write(
                self.text.replace(f"@removed_call = global i64 {NONE}", f"@removed_call = global i64 {removed.number}")
            )
        with open(trace, "w", encoding="ascii") as file:
            words = ["record", text, "--", *map(str, report.numbers)]
            file.write(run([self.setting.hippo, *words], folder, codes=tuple(range(128))).stdout)
        lines = run([self.setting.hippo, "check", text, trace], folder).stdout.splitlines()
        return any(key_of_line(line) == report.key for line in lines)


def processor_seconds(process: int) -> float:
    """The processor time of a process so far."""
    with open(f"/proc/{process}/stat", encoding="ascii") as file:
        fields = file.read().rpartition(")")[2].split()
    return (int(fields[11]) + int(fields[12])) / os.sysconf("SC_CLK_TCK")


def text_of(work: Work) -> str:
    """The lowered text of the maps, with a pool that a run of the same program creates."""
    pool = f"{work.folder}/maps.pool"
    if not os.path.exists(pool):
        work.answer("pool", PIECE, "--of", "data.pool", "-o", pool)
    return work.lowered(PIECE, "--lines", options=options_of(pool))


def main() -> int:
    """Tries each call; returns 0 if hippo confirms all that is found."""
    options = arguments_of(__doc__).parse_args()
    with tempfile.TemporaryDirectory() as scratch:
        setting = setting_of(options, scratch)
        text, calls = removable(text_of(Work(source_of(options), setting)))
        trying = Trying(text, setting)
        calls = [one for one in calls if not options.names or MAP_NAMES[one.kind] in options.names]
        for kind in sorted({one.kind for one in calls}):
            trying.search(0, Removed(0, "", kind).numbers(), SECONDS_WITHOUT)
        print_head(HEADINGS)
        found = confirmed = 0
        for removed in calls:
            report, seconds = trying.search(removed.number, removed.numbers(), SECONDS)
            cells = ["", f"{seconds:.2f}", "", ""]
            if report:
                found += 1
                is_confirmed = trying.is_confirmed(removed, report)
                confirmed += is_confirmed
                cells = [
                    os.path.basename(trying.place(report)[1]),
                    f"{seconds:.2f}",
                    " ".join(map(str, report.numbers)),
                    str(is_confirmed),
                ]
            print_row((removed.place, MAP_NAMES[removed.kind], *cells))
    print(f"{len(calls)} calls, {found} found, {confirmed} confirmed")
    return 0 if found == confirmed else 1


if __name__ == "__main__":
    sys.exit(main())
