"""What the engine of explore found: reports, failures, outputs, behaviours. Nothing of it is shown before hippo has confirmed it."""
from __future__ import annotations

from collections.abc import Iterable
from dataclasses import dataclass, field

from .pool_starts import Start
from .program import Site

# What identifies a report over all inputs: what is missing, the flush without a fence, and the path without repeated calls.
Key = tuple[str, Site | None, tuple[Site, ...]]
# A crash: the number of events before it, and the picks of its image.
Cut = tuple[int, tuple[tuple[int, int], ...]]


def shortened(path: Iterable[Site]) -> tuple[Site, ...]:
    """A path of a store and its calls, in which each call occurs once: recursion of any depth is one path."""
    store, *calls = path
    once = dict.fromkeys(reversed(calls))
    return (store, *reversed(once))


@dataclass
class Report:
    """A report that an input shows; with cuts, the run from the image that these crashes leave shows it, up to a limit of turns."""

    key: Key
    numbers: list[int]
    cuts: list[Cut] = field(default_factory=list)
    told: int = 0
    start: Start = ()
    limit: int | None = None


@dataclass
class LostStore:
    """A store that an image lacks."""

    address: int
    size: int
    path: tuple[Site, ...]


@dataclass
class Failure:
    """A run from an image that fails: how it ends and where, what came before the last crash, and the stores that its image lacks."""

    cause: str
    level: int
    ended: str
    path: tuple[Site, ...]
    at: tuple[Site, ...]
    lost: list[LostStore]
    numbers: list[int]
    cuts: list[Cut]
    told: int
    limit: int
    start: Start = ()


@dataclass
class Outputs:
    """What the program prints after a crash in an operation is what no run without a crash prints: the inputs of the run, of the run
    without the operation, and of the run after the crash, and how many prints of each come before those that are compared.
    """

    is_acknowledged: bool
    operation: int
    at: tuple[Site, ...]
    numbers: list[int]
    without: list[int]
    resumed: list[int]
    skips: tuple[int, int, int]
    cuts: list[Cut]
    told: int
    start: Start = ()
    print_number: int = 0  # of the print that acknowledged the operation


@dataclass
class Refused:
    """An input whose run leaves a state that the next run refuses, although nothing is lost: how that run ends."""

    ended: str
    numbers: list[int]
    cuts: list[Cut]
    told: int
    limit: int
    start: Start = ()


@dataclass
class Read:
    """What a run read of a line that a power cut may leave with several contents."""

    address: int
    size: int
    value: int


@dataclass
class Behaviour:
    """How the runs from some images of a crash point end: one of these images, what the runs read, and the number of all images there."""

    ended: str
    path: tuple[Site, ...]
    is_failing: bool
    images: int
    reads: list[Read]
    at: tuple[Site, ...]
    numbers: list[int]
    cuts: list[Cut]
    told: int
    limit: int
    start: Start = ()


@dataclass
class Found:
    """All that the engine said, by one or more of its processes."""

    reports: dict[Key, Report] = field(default_factory=dict)
    failures: dict[str, Failure] = field(default_factory=dict)
    outputs: dict[tuple[object, ...], Outputs] = field(default_factory=dict)
    trapped: list[list[int]] = field(default_factory=list)
    long: list[list[int]] = field(default_factory=list)
    refused: list[Refused] = field(default_factory=list)
    behaviours: list[Behaviour] = field(default_factory=list)
    kept: list[list[int]] = field(default_factory=list)
    missed: set[int] | None = None
    summary: dict[str, int] = field(default_factory=dict)
    given_blocks: int = 0
