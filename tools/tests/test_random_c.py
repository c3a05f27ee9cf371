"""Random C with arithmetic on addresses: the model by the rules, the judge on traces that are wrong in one place, and a few programs at each
level. `random_addresses.py` tries many."""
from __future__ import annotations

import os
import re
import unittest
import unittest.mock
from collections.abc import Callable
from operator import itemgetter

from clang_case import HIPPO, ClangCase
from random_c import numbers, pointers
from random_c.catching import Catching
from random_c.model import DURABLE, NEITHER, NO_FENCE, NO_FLUSH, Region
from random_c.operations import ATOMIC, FENCES, FLUSHES, NO_FENCES, NO_FLUSH as FLAG_NO_FLUSH, NO_DRAIN, Operation
from random_c.places import Index
from random_c.program import make_program
from random_c.runs import LEVELS, Bundle

# Programs that together have each detour, each operation and each form around operations.
SEEDS = [112, 194, 231, 250, 273, 313, 422, 521, 788, 880, 964, 979, 1038]
FORMS = [
    *(text.split("{0}")[0] for text in [*FLUSHES, *ATOMIC]),
    *FENCES,
    *NO_FENCES,
    "_mm_stream_si32(",
    "_mm_stream_si64(",
    *(f"pmem_{name}{end}(" for name in ("memcpy", "memmove", "memset") for end in ("", "_nodrain", "_persist")),
    "for (long i",
    "{ long i = 0; do {",
    ") goto r",
    "switch (",
    "void (*table[])(long)",
    "if (k > 0) ",
    "strcpy(",
    " *)same(&",
    "| ",
    "snprintf",
    "pm_assert",
    "pmem_persist(",
    "memset(",
    "memmove(",
    "(float)0x",
    "(double)0x",
    "switch (setjmp(at))",
    "longjmp(*",
]
# Ways that a detour takes, one of several.
WAYS = [
    "goto *table",
    "goto odd",
    "__builtin_alloca(",
    "[k + ",
    "_Alignas(",
    "__attribute__((packed))",
    "strlen(",
    "strchr(",
    "strtol(",
    "strtod(",
    "sscanf(",
    "qsort(all",
    "bsearch(",
    "sigsetjmp(",
    "static jmp_buf r",
    "struct { char before; ",
    "sqrt(",
    "fma",
    "mod",
    "union { double",
    "union { float",
    "(wide << ",
    "wide / ",
    "__int128 low",
    "va_arg(a, struct pair)",
    "va_arg(a, struct both)",
    "va_arg(a, double)",
]


class Model(unittest.TestCase):
    """The states of bytes after stores, flushes and fences."""

    def states(self, *steps: str) -> list[str]:
        """The states of the bytes 0, 63 and 64 of one object after steps: `store`, `flush` of a byte, `fence` or `persist` of a byte."""
        region = Region([128])
        for step in steps:
            word, _, number = step.partition(" ")
            if word == "fence":
                region.fence()
            else:
                steps_of: dict[str, Callable[[int, int, int], None]] = {
                    "store": region.store,
                    "flush": region.flush,
                    "persist": region.persist,
                }
                steps_of[word](0, int(number), 1)
        region.check(0, 0, 128)
        found = region.events[-1].states
        self.assertEqual({len(states) for states in found.values()}, {1})
        return [min(found[0, at]) for at in (0, 63, 64)]

    def test_what_a_store_needs(self) -> None:
        for steps, wanted in (
            ("", (DURABLE, DURABLE, DURABLE)),
            ("store 0", (NEITHER, DURABLE, DURABLE)),
            ("store 0, store 63, store 64", (NEITHER, NEITHER, NEITHER)),
            ("store 0, fence", (NO_FLUSH, DURABLE, DURABLE)),
            ("store 0, store 63, store 64, flush 1", (NO_FENCE, NO_FENCE, NEITHER)),
            ("store 0, store 64, flush 1, fence", (DURABLE, DURABLE, NO_FLUSH)),
            ("store 0, fence, flush 1", (NO_FENCE, DURABLE, DURABLE)),
            ("store 0, fence, flush 1, fence", (DURABLE, DURABLE, DURABLE)),
            ("flush 1, store 0, fence", (NO_FLUSH, DURABLE, DURABLE)),
            ("store 0, flush 1, store 0, fence", (NO_FLUSH, DURABLE, DURABLE)),
            ("store 0, flush 1, store 63, fence", (DURABLE, NO_FLUSH, DURABLE)),
            ("store 0, store 64, persist 1", (DURABLE, DURABLE, NO_FLUSH)),
            ("store 0, persist 1, store 0", (NEITHER, DURABLE, DURABLE)),
        ):
            with self.subTest(steps):
                self.assertEqual(tuple(self.states(*filter(None, steps.split(", ")))), wanted)

    def test_padding_may_be_stored(self) -> None:
        region = Region([64])
        region.may_store(0, 0, 8)
        region.store(0, 0, 4)
        region.fence()
        region.check(0, 0, 8)
        check = region.events[-1].states
        self.assertEqual((check[0, 0], check[0, 7]), ({NO_FLUSH}, {DURABLE, NO_FLUSH}))


class Jumps(unittest.TestCase):
    """What the model does at jumps."""

    def setUp(self) -> None:
        """Two places that may jump: one if `k` is odd, with the value `i`, and one always, with the value 3."""
        self.catching = Catching("r7_")
        self.done: list[str] = []
        numbers = {name: Index(name, itemgetter(name)) for name in "ki"}
        self.jump = self.catching.jump(numbers["k"], numbers["i"])
        self.leave = self.catching.jump(Index("1", lambda _: 1), Index("3", lambda _: 3))

    def note(self, what: str) -> Operation:
        """An operation that notes that it ran."""
        return Operation(f"{what};", lambda region, values: self.done.append(what))

    def ran(self, operation: Operation, **values: int) -> str:
        """What an operation does, noted letter by letter."""
        self.done.clear()
        operation.run(Region([]), values)
        return "".join(self.done)

    def caught(self, *parts: Operation) -> Operation:
        """Operations with a first and a last place to go on."""
        return self.catching.catch(list(parts), [(["y;"], self.note("y").run), (["z;"], self.note("z").run)])

    def test_where_a_jump_goes_on(self) -> None:
        operation = self.caught(self.note("a"), self.jump, self.note("b"))
        for k, i, wanted in ((2, 1, "ab"), (1, 0, "ay"), (1, 1, "ay"), (3, 2, "az"), (3, 3, "az")):
            self.assertEqual(self.ran(operation, k=k, i=i), wanted)
        self.assertEqual((self.catching.waiting, self.catching.jumps), (0, 4))

    def test_none_jumps_where_no_place_waits(self) -> None:
        self.assertEqual(self.ran(self.leave, k=1, i=1), "")
        self.ran(self.caught(self.leave), k=1, i=1)
        self.assertEqual(self.ran(self.leave, k=1, i=1), "")

    def test_the_innermost_place_catches(self) -> None:
        inner = self.caught(self.jump)
        self.assertEqual(self.ran(self.caught(inner, self.leave, self.note("b")), k=1, i=1), "yz")

    def test_a_jump_after_a_jump_goes_on_outside(self) -> None:
        inner = self.catching.catch([self.leave], [([], self.note("x").run), ([], self.leave.run)])
        self.assertEqual(self.ran(self.caught(inner, self.note("b")), k=0, i=0), "z")

    def test_the_text_restores_the_place_before(self) -> None:
        lines = [line.strip() for line in self.caught(self.note("a")).text.split("\n")]
        self.assertEqual(lines.count("r7_to = kept;"), 3)
        self.assertEqual(lines.index("r7_to = &at;") + 1, lines.index("a;"))


class Programs(ClangCase):
    """A few programs at each level."""

    bundle: Bundle
    output: str

    @classmethod
    def setUpClass(cls) -> None:
        """Builds the programs natively."""
        super().setUpClass()
        if not os.access(HIPPO, os.X_OK):
            raise unittest.SkipTest("hippo is not built")
        cls.bundle = Bundle(SEEDS, cls.folder, HIPPO)
        cls.output = cls.bundle.native_output("-O1")

    def at(self, level: str, with_engine: bool) -> None:
        """Nothing differs at a level."""
        with unittest.mock.patch.dict(os.environ, XDG_CACHE_HOME=self.folder):
            found = self.bundle.differences(level, self.output, with_engine)
        self.assertEqual([f"seed {one.seed} {one.level}: {one.text}" for one in found], [])

    def test_the_programs_have_each_form(self) -> None:
        text = "\n".join(program.text for program in self.bundle.file.programs)
        self.assertEqual([form for form in [*FORMS, *WAYS] if form not in text], [])
        ways = set().union(*(program.forms for program in self.bundle.file.programs))
        self.assertEqual({form.__name__ for form in [*numbers.DETOURS, *pointers.DETOURS]} - ways, set())
        self.assertTrue(
            [program for program in self.bundle.file.programs if program.catching and program.catching.jumps]
        )
        flags = {int(flags) & (FLAG_NO_FLUSH | NO_DRAIN) for flags in re.findall(r"pmem_mem\w+\(.*, (\d+)\);", text)}
        self.assertEqual(flags, {0, NO_DRAIN, FLAG_NO_FLUSH, FLAG_NO_FLUSH | NO_DRAIN})

    def test_a_seed_always_gives_the_same_program(self) -> None:
        self.assertEqual(
            [make_program(seed).text for seed in SEEDS[:2]], [program.text for program in self.bundle.file.programs[:2]]
        )


def add_tests() -> None:
    """A test for each level; one of them also compares with a native run at hippo's addresses."""
    for level in LEVELS:
        setattr(Programs, f"test_{level[1:]}", lambda self, level=level: self.at(level, level == "-O2"))


add_tests()
if __name__ == "__main__":
    unittest.main()
