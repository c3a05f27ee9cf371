"""The longest chain of crates, what all of them cost to prove, and how long that takes on several processors.

    python3 tools/crate_schedule.py [--crates FILE] [--weights FILE] [--top CRATE] [--processors N,N] [--whole]

crates.txt lists the crates that each crate depends on. The file of weights has a line `NAME SECONDS` for each crate. A crate
without a line, as the crates of tests, is left out. The schedule is a list schedule: among the crates whose libraries are
proved, a free processor takes the one with the longest chain above it.
"""

from __future__ import annotations

import argparse
import heapq
import math
import sys
from dataclasses import dataclass
from pathlib import Path

TOP = Path(__file__).resolve().parent.parent


class Refused(Exception):
    """A file with a wrong form, and the reason."""


def read_lines(text: str) -> list[str]:
    """The lines of a text without comments and without empty lines."""
    lines = (line.split("#", 1)[0].strip() for line in text.splitlines())
    return [line for line in lines if line]


def read_crates(text: str) -> dict[str, list[str]]:
    """Each crate of a crates.txt with the crates of the same file that it names."""
    named: dict[str, list[str]] = {}
    for line in read_lines(text):
        head, colon, rest = line.partition(":")
        if not colon or not head.split():
            raise Refused(f"no crate in the line: {line}")
        named[head.split()[0]] = rest.split()
    return {name: [low for low in lows if low in named] for name, lows in named.items()}


def read_weights(text: str) -> dict[str, float]:
    """The seconds of each crate of a file of weights."""
    weights: dict[str, float] = {}
    for line in read_lines(text):
        words = line.split()
        try:
            name, seconds = words[0], float(words[1])
        except (IndexError, ValueError):
            raise Refused(f"no crate and seconds in the line: {line}") from None
        if len(words) > 2 or not 0 <= seconds < math.inf:
            raise Refused(f"no crate and seconds in the line: {line}")
        weights[name] = seconds
    return weights


def below(crates: dict[str, list[str]], top: str) -> list[str]:
    """The crate and all that it depends on, each after its own dependencies."""
    if top not in crates:
        raise Refused(f"no such crate: {top}")
    order: list[str] = []
    entered: set[str] = set()

    def enter(name: str, way: tuple[str, ...]) -> None:
        if name in way:
            raise Refused("crates in a circle: " + " ".join((*way[way.index(name) :], name)))
        if name in entered:
            return
        for low in crates[name]:
            enter(low, way + (name,))
        entered.add(name)
        order.append(name)

    enter(top, ())
    return order


@dataclass
class Graph:
    """Crates in an order in which each comes after its libraries, with their libraries and their seconds."""

    order: list[str]
    libraries: dict[str, list[str]]
    weights: dict[str, float]

    @property
    def total(self) -> float:
        """The seconds of all crates."""
        return sum(self.weights[name] for name in self.order)

    def ends(self) -> dict[str, float]:
        """For each crate the seconds of the longest chain that ends in it."""
        ends: dict[str, float] = {}
        for name in self.order:
            ends[name] = self.weights[name] + max((ends[low] for low in self.libraries[name]), default=0.0)
        return ends

    def chain(self) -> list[str]:
        """The crates of a longest chain, the lowest first."""
        ends = self.ends()
        chain = [max(self.order, key=lambda name: ends[name])]
        while self.libraries[chain[-1]]:
            chain.append(max(self.libraries[chain[-1]], key=lambda name: ends[name]))
        return chain[::-1]

    def through(self) -> dict[str, float]:
        """For each crate the seconds of the longest chain that it is in."""
        ends, tails = self.ends(), self.tails()
        return {name: ends[name] + tails[name] - self.weights[name] for name in self.order}

    def tails(self) -> dict[str, float]:
        """For each crate the seconds of the longest chain that begins with it."""
        tails = {name: self.weights[name] for name in self.order}
        for name in reversed(self.order):
            for low in self.libraries[name]:
                tails[low] = max(tails[low], self.weights[low] + tails[name])
        return tails


@dataclass(frozen=True)
class Piece:
    """A crate's time on a processor."""

    start: float
    end: float
    processor: int
    name: str


def graph_of(crates: dict[str, list[str]], weights: dict[str, float], top: str | None) -> Graph:
    """The graph of the crates below `top`, or of all that have a weight."""
    tops = [top] if top is not None else [name for name in crates if name in weights]
    order = list(dict.fromkeys(name for each in tops for name in below(crates, each)))
    missing = [name for name in order if name not in weights]
    if missing:
        raise Refused("no weight: " + " ".join(missing))
    return Graph(order, {name: crates[name] for name in order}, weights)


def schedule(graph: Graph, processors: int) -> list[Piece]:
    """What each of this many processors proves, and when."""
    tails = graph.tails()
    waits = {name: len(graph.libraries[name]) for name in graph.order}
    above: dict[str, list[str]] = {name: [] for name in graph.order}
    for name in graph.order:
        for low in graph.libraries[name]:
            above[low].append(name)
    ready = [(-tails[name], name) for name in graph.order if not waits[name]]
    heapq.heapify(ready)
    free = list(range(processors))
    running: list[tuple[float, str, int]] = []
    pieces: list[Piece] = []
    now = 0.0
    while ready or running:
        while ready and free:
            _, name = heapq.heappop(ready)
            processor = heapq.heappop(free)
            end = now + graph.weights[name]
            pieces.append(Piece(now, end, processor, name))
            heapq.heappush(running, (end, name, processor))
        now = running[0][0]
        while running and running[0][0] == now:
            _, name, processor = heapq.heappop(running)
            heapq.heappush(free, processor)
            for high in above[name]:
                waits[high] -= 1
                if not waits[high]:
                    heapq.heappush(ready, (-tails[high], high))
    return pieces


def makespan(pieces: list[Piece]) -> float:
    """When the last crate is proved."""
    return max((piece.end for piece in pieces), default=0.0)


def report(graph: Graph, processors: list[int], whole: bool) -> list[str]:
    """The lines with the chain, the total and the schedules."""
    ends = graph.ends()
    chain = graph.chain()
    lines = [f"longest chain: {ends[chain[-1]]:.0f} s, {len(chain)} crates"]
    lines += [f"  {ends[name]:6.0f}  {graph.weights[name]:4.0f}  {name}" for name in chain]
    lines.append(f"total: {graph.total:.0f} s, {graph.total / 60:.1f} min, {len(graph.order)} crates")
    if whole:
        through = graph.through()
        lines.append("the longest chain through each crate, and its own seconds:")
        for name in sorted(graph.order, key=lambda name: (-through[name], ends[name])):
            lines.append(f"  {through[name]:6.0f}  {graph.weights[name]:4.0f}  {name}")
    for count in processors:
        pieces = schedule(graph, count)
        lines.append(f"{count} processors: {makespan(pieces):.0f} s, {makespan(pieces) / 60:.1f} min")
        if whole:
            lines += [f"  {piece.start:6.0f} {piece.end:6.0f}  {piece.processor + 1}  {piece.name}" for piece in pieces]
    return lines


def processors_in(text: str) -> list[int]:
    """The numbers of processors, joined by commas."""
    words = text.split(",")
    if not all(word.isdecimal() and int(word) > 0 for word in words):
        raise Refused(f"not numbers of processors, such as 2,4: {text}")
    return [int(word) for word in words]


def main(words: list[str]) -> int:
    """Reads the words, prints the report, and returns the exit code."""
    parser = argparse.ArgumentParser(description=__doc__.splitlines()[0])
    parser.add_argument(
        "--crates", type=Path, default=TOP / "crates.txt", help="the list of crates and what they depend on"
    )
    parser.add_argument(
        "--weights", type=Path, default=TOP / "tools" / "crate_weights.txt", help="the seconds of each crate"
    )
    parser.add_argument("--top", help="this crate and all that it depends on; otherwise all crates that have a weight")
    parser.add_argument("--processors", default="2,4", help="the numbers of processors, joined by commas (2,4)")
    parser.add_argument(
        "--whole",
        action="store_true",
        help="also print the longest chain through each crate, and when each crate is proved",
    )
    order = parser.parse_args(words)
    try:
        crates = read_crates(order.crates.read_text(encoding="utf-8"))
        weights = read_weights(order.weights.read_text(encoding="utf-8"))
        graph = graph_of(crates, weights, order.top)
        lines = report(graph, processors_in(order.processors), order.whole)
    except (OSError, UnicodeDecodeError, Refused) as fault:
        print(f"crate_schedule: {fault}", file=sys.stderr)
        return 1
    print("\n".join(lines))
    return 0


if __name__ == "__main__":
    sys.exit(main(sys.argv[1:]))
