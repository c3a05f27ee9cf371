"""Progress of a build: what is proved, how long the rest takes, and what each crate costs."""

from __future__ import annotations

import contextlib
import os
import statistics
import time
from pathlib import Path

import crate_schedule
from sources import Failed, Sources

WEIGHTS = "tools/crate_weights.txt"
# Seconds for a crate if no crate has a known time.
USUAL = 60.0
# Seconds after the last proof: the program is compiled twice, linked and run.
AFTER_PROOFS = 60.0
# Seconds of weights that the first estimate of the pace counts for.
FIRST = 60.0
# The part of its time that a proof which is overdue is expected to take still.
OVERDUE = 0.2


def weights_of(sources: Sources) -> dict[str, float]:
    """The seconds of each crate below the program; a crate without a weight gets the median."""
    try:
        known = crate_schedule.read_weights((sources.top / WEIGHTS).read_text(encoding="utf-8"))
    except (OSError, UnicodeDecodeError, crate_schedule.Refused) as fault:
        raise Failed(f"{WEIGHTS}: {fault}") from None
    middle = statistics.median(known.values()) if known else USUAL
    return {name: known.get(name, middle) for name in sources.crates}


def duration(seconds: float) -> str:
    """A time that passed, in minutes and seconds."""
    minutes, rest = divmod(int(seconds), 60)
    return f"{minutes} min {rest:02d} s" if minutes else f"{rest} s"


def minutes(seconds: float) -> str:
    """An estimated time, in whole minutes."""
    count = max(1, round(seconds / 60))
    return f"{count} minute{'s' * (count > 1)}"


def free_processors() -> float:
    """How many processors other programs leave, by the load of the last minute; at least one."""
    count = len(os.sched_getaffinity(0))
    try:
        return max(1.0, count - os.getloadavg()[0])
    except OSError:
        return float(count)


class Plan:
    """How long a build takes. The first estimate takes the weights of the crates and what other programs leave of the machine; later ones
    take the time that the proofs of this build took."""

    def __init__(self, sources: Sources, jobs: int) -> None:
        self.sources, self.jobs = sources, jobs
        self.weights = weights_of(sources)
        self.first_pace = max(1.0, jobs / free_processors())

    def makespan(self, left: dict[str, float]) -> float:
        """The seconds until all crates are proved, from those that each still takes."""
        graph = crate_schedule.graph_of(self.sources.libraries, left, self.sources.crates[-1])
        return crate_schedule.makespan(crate_schedule.schedule(graph, self.jobs))

    @property
    def whole(self) -> float:
        """The seconds of a build for which no proof is kept."""
        return self.first_pace * (self.makespan(self.weights) + AFTER_PROOFS)

    def pace(self, took: dict[str, float]) -> float:
        """The seconds that pass for a second of the weights, from the crates that were proved in this build. The first estimate counts as
        much as a minute of proofs."""
        known = sum(self.weights[name] for name in took)
        return (sum(took.values()) + self.first_pace * FIRST) / (known + FIRST)

    def remaining(self, took: dict[str, float], kept: frozenset[str], running: dict[str, float]) -> float:
        """The seconds that are left, from those that proved crates took, the crates that an earlier build proved, and the seconds since
        each running proof began. A proof that takes longer than expected is expected to end soon, but never at once."""
        pace = self.pace(took)
        left = {}
        for name in self.sources.crates:
            whole = pace * self.weights[name]
            is_ended = name in took or name in kept
            left[name] = 0.0 if is_ended else max(whole - running.get(name, 0.0), OVERDUE * whole)
        return self.makespan(left) + pace * AFTER_PROOFS


class Meter:
    """The seconds of processor time that the proof of each crate takes, read from its processes while they run."""

    def __init__(self, ancestor: int) -> None:
        self.ancestor = ancestor
        self.seen: dict[tuple[int, str], float] = {}
        self.began: dict[str, float] = {}

    def look(self) -> None:
        """Reads what each process below the ancestor has used so far."""
        parents, used = {}, {}
        for process in Path("/proc").iterdir():
            with contextlib.suppress(OSError, ValueError):
                fields = (process / "stat").read_text(encoding="utf-8", errors="replace").rpartition(")")[2].split()
                number = int(process.name)
                parents[number], used[number] = int(fields[1]), sum(map(int, fields[11:15]))
        for number in used:
            if self.is_below(number, parents):
                name = crate_of(number)
                if name:
                    self.began.setdefault(name, time.monotonic())
                    self.seen[number, name] = used[number] / os.sysconf("SC_CLK_TCK")

    def is_below(self, number: int, parents: dict[int, int]) -> bool:
        """Whether the process was started by the ancestor, or by one that it started."""
        while number in parents and number != self.ancestor:
            number = parents[number]
        return number == self.ancestor

    def seconds(self) -> dict[str, float]:
        """The seconds of each crate that was seen."""
        total: dict[str, float] = {}
        for (_, name), used in self.seen.items():
            total[name] = total.get(name, 0.0) + used
        return total


def crate_of(number: int) -> str | None:
    """The crate that a process proves, or nothing if it proves none, as in a pass over the sources."""
    try:
        words = Path(f"/proc/{number}/cmdline").read_bytes().decode(errors="replace").split("\0")
    except OSError:
        return None
    if "--crate-name" not in words or "--only" in words:
        return None
    return words[words.index("--crate-name") + 1]


def write_weights(sources: Sources, measured: dict[str, float]) -> None:
    """Updates the file of weights with what was measured; a crate that was not proved in this run keeps its weight."""
    file = sources.top / WEIGHTS
    weights = {**weights_of(sources), **measured}
    comments = [line for line in file.read_text(encoding="utf-8").splitlines() if line.startswith("#")]
    lines = [f"{name} {weights[name]:.0f}" for name in sources.crates]
    file.write_text("".join(f"{line}\n" for line in [*comments, *lines]), encoding="utf-8")
