"""Places in persistent objects: their text in C, with indices that depend on the variables of a function, and their offsets."""
from __future__ import annotations

import random
from collections.abc import Callable
from dataclasses import dataclass, field

from . import numbers, pointers
from .layout import Leaf, Object

# The values of a function's variables: its parameter `k`, and the counter `i` of a loop around.
Values = dict[str, int]


@dataclass
class Index:
    """An expression of type long with a known value from 0 to 63."""

    text: str
    of: Callable[[Values], int]


@dataclass
class Place:
    """A scalar of an object: its text as a value that can be assigned to, and its offset."""

    object: Object
    text: str
    type: str
    size: int
    offset: Callable[[Values], int]


@dataclass
class Span:
    """A range of bytes of an object: a pointer to it and its size, as text and as numbers."""

    object: Object
    text: str
    offset: Callable[[Values], int]
    size_text: str
    size: Callable[[Values], int]


@dataclass
class Detours:
    """The functions of a program that return their argument, by their names; `forms` says by which ways."""

    forms: set[str] = field(default_factory=set)
    definitions: list[str] = field(default_factory=list)
    numbers: list[str] = field(default_factory=list)
    pointers: list[str] = field(default_factory=list)


def make_detours(chance: random.Random, prefix: str) -> Detours:
    """Some detours of each kind."""
    found = Detours()
    for names, forms, word in ((found.numbers, numbers.DETOURS, "n"), (found.pointers, pointers.DETOURS, "p")):
        for number, form in enumerate(chance.sample(forms, k=chance.randint(3, 5))):
            name = f"{prefix}{word}{number}"
            found.forms.add(form.__name__)
            found.definitions.append(form(chance, name))
            names.append(name)
    return found


class Places:
    """Random places of some objects."""

    def __init__(self, chance: random.Random, objects: list[Object], detours: Detours) -> None:
        self.chance, self.objects, self.detours = chance, objects, detours

    def index(self, below: int, variables: str) -> Index:
        """An index below a number, up to 64."""
        chance = self.chance
        plain = self.plain_index(below, variables)
        if chance.random() < 0.5:
            name = chance.choice(self.detours.numbers)
            return Index(f"{name}({plain.text})", plain.of)
        return plain

    def plain_index(self, below: int, variables: str) -> Index:
        """The same without a detour. `variables` are the letters of those in scope."""
        chance, fixed = self.chance, self.chance.randrange(below)
        if not variables or chance.random() < 0.3:
            return Index(str(fixed), lambda _: fixed)
        name, factor = chance.choice(variables), chance.choice([1, 1, 2, 3])
        if below & (below - 1) == 0:
            return Index(
                f"(({name} * {factor} + {fixed}) & {below - 1})",
                lambda values: values[name] * factor + fixed & below - 1,
            )
        return Index(
            f"(({name} * {factor} + {fixed}) % {below})", lambda values: (values[name] * factor + fixed) % below
        )

    def address(self, text: str) -> str:
        """An address, perhaps by a detour; of type `void *`."""
        if self.chance.random() < 0.4:
            return f"{self.chance.choice(self.detours.pointers)}({text})"
        return f"((void *)({text}))"

    def scalar(self, variables: str) -> Place:
        """A scalar: a field, an element, or what a pointer to it names."""
        chosen = self.chance.choice(self.objects)
        leaf = self.chance.choice(chosen.leaves)
        text, offset = self.element(chosen, leaf, variables)
        if self.chance.random() < 0.4:
            text = f"*({leaf.type} *){self.address(self.alternative(chosen, leaf, text))}"
        return Place(chosen, text, leaf.type, leaf.size, offset)

    def element(self, chosen: Object, leaf: Leaf, variables: str) -> tuple[str, Callable[[Values], int]]:
        """The text of a scalar of a leaf, and its offset."""
        text = f"{chosen.name}.{leaf.path}"
        if not leaf.count:
            return text, lambda _: leaf.offset
        index = self.index(min(leaf.count, 64), variables)
        return f"{text}[{index.text}]", lambda values: leaf.offset + leaf.size * index.of(values)

    def alternative(self, chosen: Object, leaf: Leaf, text: str) -> str:
        """The address of a scalar: by `&`, or by numbers if its offset is known and inside the object's alignment."""
        if not leaf.count and leaf.offset < 64 and self.chance.random() < 0.5:
            return self.chance.choice(
                [
                    f"(void *)((uintptr_t)&{chosen.name} | {leaf.offset})",
                    f"(char *)&{chosen.name} + {leaf.offset}",
                    f"(void *)(((uintptr_t)&{text} & -64) | {leaf.offset})",
                ]
            )
        return f"&{text}"

    def span(self, variables: str, most: int = 80, is_fixed: bool = False) -> Span:
        """A range of an object, from a place that an index may move, with a size that another may shorten unless it is fixed."""
        chance = self.chance
        chosen = chance.choice(self.objects)
        size = chance.randint(1, min(most, chosen.size))
        moves = min(chosen.size - size + 1, 64)
        start = chance.randint(0, chosen.size - size - moves + 1)
        index = self.index(chance.randint(1, moves), variables)
        text = self.address(f"(char *)&{chosen.name} + {start} + {index.text}")
        offset = lambda values: start + index.of(values)  # noqa: E731
        if size < 3 or is_fixed or chance.random() < 0.5:
            return Span(chosen, text, offset, str(size), lambda _: size)
        less = self.index(min(size - 1, 64), variables)
        return Span(chosen, text, offset, f"(size_t)({size} - {less.text})", lambda values: size - less.of(values))
