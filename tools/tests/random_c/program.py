"""A random program: functions with loops, branches, jumps and recursion around operations, and what they do to the model."""
from __future__ import annotations

import random
from collections.abc import Callable
from dataclasses import dataclass, field

from .catching import Catching
from .layout import Object, make_object
from .model import Region
from .operations import Operation, Operations
from .places import Places, Values, make_detours
from .prelude import PRELUDE

Run = Callable[[Region, Values], None]


@dataclass
class Function:
    """A function `void NAME(long k)`, and what it does."""

    name: str
    text: str
    run: Run


@dataclass
class Program:
    """A program: its definitions, the name of its `main`, the numbers that it reads, its objects, the ways of its detours, what it does, and its jumps."""

    seed: int
    text: str
    main: str
    numbers: list[int]
    objects: list[Object]
    forms: set[str]
    calls: list[Function]
    catching: Catching | None = None

    def run(self, region: Region) -> None:
        """Does to a region what the program does."""
        region.seed = self.seed
        for called, number in zip(self.calls, self.numbers):
            called.run(region, {"k": number})


def in_order(first: Run, second: Run) -> Run:
    """One run after another."""

    def run(region: Region, values: Values) -> None:
        first(region, values)
        second(region, values)

    return run


@dataclass
class Writer:
    """Writes the functions of a program."""

    chance: random.Random
    prefix: str
    operations: Operations
    catching: Catching | None
    functions: list[Function] = field(default_factory=list)
    labels: int = 0

    def body(self, variables: str, count: int, depth: int) -> tuple[list[str], Run]:
        """Some statements, one after another."""
        parts = [self.statement(variables, depth) for _ in range(count)]

        def run(region: Region, values: Values) -> None:
            for part in parts:
                part.run(region, values)

        return [line for part in parts for line in part.text.split("\n")], run

    def statement(self, variables: str, depth: int) -> Operation:
        """An operation, or a form around several."""
        forms: list[Callable[[str, int], Operation]] = [self.loop, self.branch, self.choice] if depth else []
        if self.functions and "i" not in variables:
            forms += [self.call, self.call_by_pointer]
        if self.catching:
            forms += [self.jump, self.jump, *([self.catch] * 3 if depth else [])]
        if forms and self.chance.random() < 0.3:
            return self.chance.choice(forms)(variables, depth)
        return self.operations.any(variables)

    def loop(self, variables: str, depth: int) -> Operation:
        """A loop with the counter `i`; by `for`, `do` or `goto`."""
        if "i" in variables:
            return self.branch(variables, depth)
        count = self.chance.randint(1, 5)
        lines, run = self.body(variables + "i", self.chance.randint(1, 3), depth - 1)
        self.labels += 1
        head, end = self.chance.choice(
            [
                (f"for (long i = 0; i < {count}; i++) {{", "}"),
                ("{ long i = 0; do {", f"}} while (++i < {count}); }}"),
                (
                    f"{{ long i = 0; {self.prefix}again{self.labels}: ;",
                    f"if (++i < {count}) goto {self.prefix}again{self.labels}; }}",
                ),
            ]
        )

        def run_all(region: Region, values: Values) -> None:
            for i in range(count):
                run(region, {**values, "i": i})

        return Operation("\n".join([head, *(f"  {line}" for line in lines), end]), run_all)

    def branch(self, variables: str, depth: int) -> Operation:
        """An `if` with an `else`."""
        index, mask = self.operations.places.index(64, variables), self.chance.choice([1, 2, 3, 4])
        first, run_first = self.body(variables, self.chance.randint(1, 2), depth - 1)
        second, run_second = self.body(variables, self.chance.randint(0, 2), depth - 1)
        text = "\n".join(
            [
                f"if ({index.text} & {mask}) {{",
                *(f"  {line}" for line in first),
                "} else {",
                *(f"  {line}" for line in second),
                "}",
            ]
        )
        return Operation(
            text, lambda region, values: (run_first if index.of(values) & mask else run_second)(region, values)
        )

    def choice(self, variables: str, depth: int) -> Operation:
        """A `switch` over a few values, with cases that fall through."""
        count = self.chance.randint(2, 4)
        index = self.operations.places.index(count + 1, variables)
        bodies = [self.body(variables, 1, depth - 1) for _ in range(count)]
        breaks = [self.chance.random() < 0.7 for _ in range(count)]
        lines = [f"switch ({index.text}) {{"]
        for number, (body, _) in enumerate(bodies):
            lines += [
                f"  case {number}: {{",
                *(f"    {line}" for line in body),
                f'  }} {"break;" if breaks[number] else ""}',
            ]

        def run(region: Region, values: Values) -> None:
            for number in range(index.of(values), count):
                bodies[number][1](region, values)
                if breaks[number]:
                    break

        return Operation("\n".join([*lines, "}"]), run)

    def jump(self, variables: str, _: int) -> Operation:
        """A jump to the innermost place that waits for one, if there is any and a number is odd."""
        assert self.catching
        return self.catching.jump(
            self.operations.places.index(64, variables), self.operations.places.index(4, variables)
        )

    def catch(self, variables: str, depth: int) -> Operation:
        """Statements whose jumps are caught, with others after a jump."""
        assert self.catching
        parts = [self.statement(variables, depth - 1) for _ in range(self.chance.randint(1, 4))]
        if self.chance.random() < 0.5:
            parts.insert(self.chance.randint(0, len(parts)), self.jump(variables, depth))
        return self.catching.catch(
            parts, [self.body(variables, self.chance.randint(0, 2), depth - 1) for _ in range(2)]
        )

    def call(self, variables: str, _: int) -> Operation:
        """A call of a function before this one."""
        index = self.operations.places.index(6, variables)
        called = self.chance.choice(self.functions)
        return Operation(
            f"{called.name}({index.text});", lambda region, values: called.run(region, {"k": index.of(values)})
        )

    def call_by_pointer(self, variables: str, _: int) -> Operation:
        """A call by pointer, from a table on the stack."""
        index, which = (self.operations.places.index(below, variables) for below in (6, 4))
        called = [self.chance.choice(self.functions) for _ in range(4)]
        names = ", ".join(one.name for one in called)
        return Operation(
            f"{{ void (*table[])(long) = {{ {names} }}; touch(table); table[{which.text}]({index.text}); }}",
            lambda region, values: called[which.of(values)].run(region, {"k": index.of(values)}),
        )

    def function(self) -> None:
        """Adds a function, which may call itself."""
        name = f"{self.prefix}f{len(self.functions)}"
        before, run_before = self.body("k", self.chance.randint(2, 5), 2)
        if self.catching and self.chance.random() < 0.5:
            caught = self.catch("k", 2)
            before, run_before = [*before, *caught.text.split("\n")], in_order(run_before, caught.run)
        after, run_after = self.body("k", self.chance.randint(1, 3), 2)
        calls_itself = self.chance.random() < 0.4

        def run(region: Region, values: Values) -> None:
            run_before(region, values)
            if calls_itself and values["k"] > 0:
                run(region, {"k": values["k"] - 1})
            run_after(region, values)

        head = self.chance.choice(["static void", "void", "__attribute__((noinline)) void"])
        lines = [*before, *([f"if (k > 0) {name}(k - 1);"] if calls_itself else []), *after]
        self.functions.append(
            Function(name, "\n".join([f"{head} {name}(long k) {{", *(f"  {line}" for line in lines), "}"]), run)
        )


def make_program(seed: int) -> Program:
    """The program of a seed."""
    chance, prefix = random.Random(f"random C {seed}"), f"r{seed}_"
    objects = [make_object(chance, prefix, number) for number in range(chance.randint(1, 3))]
    detours = make_detours(chance, prefix)
    catching = Catching(prefix) if chance.random() < 0.4 else None
    writer = Writer(chance, prefix, Operations(chance, Places(chance, objects, detours)), catching)
    for _ in range(chance.randint(2, 4)):
        writer.function()
    numbers = [chance.randrange(7) for _ in range(chance.randint(1, 3))]
    calls = [chance.choice(writer.functions) for _ in numbers]
    lines = [f"  {called.name}(read_i64());" for called in calls]
    lines += [
        f"  mix_bytes((char *)&{one.name} + {offset}, {size});" for one in objects for offset, size in one.ranges()
    ]
    lines.append("  mix(rounded);")
    definitions = [line for one in objects for line in one.declarations] + ([catching.declaration] if catching else [])
    text = "\n".join(
        [
            *definitions,
            *detours.definitions,
            *(one.text for one in writer.functions),
            f"static void {prefix}main(void) {{",
            *lines,
            "}",
        ]
    )
    return Program(seed, text, f"{prefix}main", numbers, objects, detours.forms, calls, catching)


class File:
    """Programs in one file, which run one after another. Each ends with a number that it prints."""

    def __init__(self, programs: list[Program]) -> None:
        self.programs = programs
        self.objects = [one for program in programs for one in program.objects]
        for number, one in enumerate(self.objects):
            one.number = number
        self.region = Region([one.size for one in self.objects])
        for program in programs:
            program.run(self.region)
        self.region.end()

    @property
    def numbers(self) -> list[int]:
        """The input: 0, and the numbers that each program reads."""
        return [0, *(number for program in self.programs for number in program.numbers)]

    @property
    def text(self) -> str:
        """The C of the file."""
        calls = [line for program in self.programs for line in (f"  {program.main}();", "  print_i64((long long)sum);")]
        main = ["int main(void) {", "  zero = read_i64();", *calls, "  return 0;", "}", ""]
        return "\n".join([PRELUDE, *(program.text for program in self.programs), *main])
