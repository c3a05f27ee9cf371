"""What a crash may leave after each entry of a trace, by cache lines, as hippo's `crash` numbers them.

This only enumerates what to try: hippo makes the image, and refuses picks that no crash leaves."""
import random
from collections.abc import Callable, Collection, Iterable, Iterator, Mapping
from dataclasses import dataclass, field
from functools import lru_cache
from hashlib import blake2b

from .program import REGION_BASE
from .traces import pieces

LINE = 64
KEYS = 1 << 128
# About the number of entries that are tried first, spread over the run.
FIRST_ROUND = 64
Picks = tuple[tuple[int, int], ...]


@dataclass
class CacheLine:
    """The entries of a line's stores, and how many of these are flushed and durable."""

    stores: list[int] = field(default_factory=list)
    flushed: int = 0
    durable: int = 0


@dataclass
class Point:
    """An image to try: the crash comes after an entry, and these lines have more than their durable stores. Equal images have equal keys."""

    entry: int
    picks: Picks
    key: int = 0


@lru_cache(1 << 16)
def part_of_key(line: int, stores: int) -> int:
    """What a line adds to the key of an image, by the number of its stores: digests whose sum two images hardly share."""
    return int.from_bytes(blake2b(b"%d:%d" % (line, stores), digest_size=16).digest(), "little") if stores else 0


class CacheLines:
    """The cache lines of the region, entry by entry."""

    def __init__(self) -> None:
        self.lines: dict[int, CacheLine] = {}
        self.pending: set[int] = set()
        self.durable_key = 0

    def take(self, number: int, entry: str) -> None:
        """Takes in an entry."""
        word, *rest = entry.split(";")
        if word in ("STORE", "FLUSH", "PERSIST"):
            address, size = int(rest[0], 16) - REGION_BASE, int(rest[-1], 16)
            numbers = range(address // LINE, (address + max(size, 1) - 1) // LINE + 1)
            if word == "STORE":
                self.store(numbers, number)
            else:
                self.flush(numbers)
        if word in ("FENCE", "PERSIST"):
            self.fence()

    def store(self, numbers: Iterable[int], entry: int) -> None:
        """A store into these lines."""
        for number in numbers:
            self.lines.setdefault(number, CacheLine()).stores.append(entry)
            self.pending.add(number)

    def flush(self, numbers: Iterable[int]) -> None:
        """A flush of these lines."""
        for number in numbers:
            if number in self.lines:
                self.lines[number].flushed = len(self.lines[number].stores)

    def fence(self) -> None:
        """A fence, after which all flushed stores are durable."""
        for number in list(self.pending):
            line = self.lines[number]
            self.durable_key += part_of_key(number, line.flushed) - part_of_key(number, line.durable)
            line.durable = line.flushed
            if line.durable == len(line.stores):
                self.pending.discard(number)

    def key(self, picks: dict[int, int]) -> int:
        """What identifies an image: how many stores of each line it has."""
        more = sum(
            part_of_key(number, upto) - part_of_key(number, self.lines[number].durable)
            for number, upto in picks.items()
        )
        return (self.durable_key + more) % KEYS

    def choices(self, count: int) -> int:
        """The number of images to try after an entry, `count` random ones among them."""
        return 2 + 2 * len(self.pending) + count if self.pending else 1

    def choice(self, which: int, chance: random.Random) -> dict[int, int]:
        """One of these images, by the stores of the lines that are not durable: none, all, one line alone, all but one line, or random
        numbers of stores."""
        pending, whole = sorted(self.pending), {number: len(self.lines[number].stores) for number in self.pending}
        if which < 2:
            return whole if which else {}
        place, way = which - 2, 0
        if pending and place < 2 * len(pending):
            way, place = divmod(place, len(pending))
            return {number: upto for number, upto in whole.items() if (number == pending[place]) == (way == 0)}
        return {number: chance.randint(self.lines[number].durable, upto) for number, upto in whole.items()}

    def points(self, entry: int, chance: random.Random, which: Iterable[int]) -> Iterator[Point]:
        """The chosen images after an entry."""
        for one in which:
            picks = {
                number: upto for number, upto in self.choice(one, chance).items() if upto > self.lines[number].durable
            }
            yield Point(entry, tuple(sorted(picks.items())), self.key(picks))


@dataclass
class Choice:
    """What to try: after which entries, `count` random images of each beside all others, or at most `most` images at random; `entries` is the
    number of the entries of the trace from which is chosen."""

    first: int
    last: int
    seed: int
    count: int
    most: int | None = None
    entries: int = 0

    def has(self, number: int) -> bool:
        """Whether a crash is tried after an entry."""
        return self.first <= number <= self.last


def points_of(path: str, choice: Choice, spread: bool = False) -> Iterator[list[Point]]:
    """The points of a trace, for each entry together, and each image once, at the first entry that has it. They are in the order of the trace,
    or, spread, first those of some entries over the whole run, then those between, as long as there are any."""
    chance = random.Random(choice.seed)
    seen: set[object] = set()
    choice.entries = sum(1 for number, _ in enumerate(pieces(path), 1) if choice.has(number))
    chosen = None if choice.most is None else sample_of(path, choice.has, chance, choice.count, choice.most)
    entries = choice.entries if chosen is None else len(chosen)
    for step, among in strides(entries) if spread else [(1, 0)]:
        lines, place = CacheLines(), -1
        for number, entry in enumerate(pieces(path), 1):
            lines.take(number, entry)
            if not (choice.has(number) if chosen is None else number in chosen):
                continue
            place += 1
            if place % step == 0 and not (among and place % among == 0):
                which = range(lines.choices(choice.count)) if chosen is None else chosen[number]
                new = {point.key: point for point in lines.points(number, chance, which) if point.key not in seen}
                seen.update(new)
                yield list(new.values())


def strides(entries: int) -> Iterator[tuple[int, int]]:
    """Steps from one entry to the next, each half as long as the one before, whose entries are left out: together they reach each entry once."""
    step, among = 1, 0
    while entries // step > FIRST_ROUND:
        step *= 2
    while step:
        yield step, among
        step, among = step // 2, step


def sample_of(
    path: str, wanted: Callable[[int], bool], chance: random.Random, count: int, most: int
) -> Mapping[int, Collection[int]]:
    """Some images of a trace, chosen at random: their numbers, by entries."""
    lines, ends, total = CacheLines(), [], 0
    for number, entry in enumerate(pieces(path), 1):
        lines.take(number, entry)
        if wanted(number):
            total += lines.choices(count)
            ends.append((number, total))
    found: dict[int, list[int]] = {}
    numbers = iter(sorted(chance.sample(range(total), min(most, total))))
    one, start = next(numbers, None), 0
    for place, end in ends:
        while one is not None and one < end:
            found.setdefault(place, []).append(one - start)
            one = next(numbers, None)
        start = end
    return found


def lost_stores(path: str, point: Point) -> list[int]:
    """The entries of the stores that came before a crash and are not in its image."""
    lines = CacheLines()
    for number, entry in enumerate(pieces(path), 1):
        if number > point.entry:
            break
        lines.take(number, entry)
    picks = dict(point.picks)
    return sorted(
        {
            entry
            for number in lines.pending
            for entry in lines.lines[number].stores[picks.get(number, lines.lines[number].durable) :]
        }
    )


def smaller(point: Point) -> Iterator[Point]:
    """Points with one pick fewer, or with half the stores of one pick."""
    for place, (number, upto) in enumerate(point.picks):
        rest = point.picks[:place] + point.picks[place + 1 :]
        yield Point(point.entry, rest)
        if upto > 1:
            yield Point(point.entry, tuple(sorted((*rest, (number, upto // 2)))))
