"""What a random program does to its persistent objects: each operation as text, and as what it does to the model."""
from __future__ import annotations

import random
from collections.abc import Callable
from typing import NamedTuple

from .layout import FLOATS
from .model import Region
from .places import Places, Span, Values

FLUSHES = [
    "_mm_clwb({0});",
    "_mm_clflushopt({0});",
    "_mm_clflush({0});",
    "pmem_flush({0}, 1);",
    'ASM_FLUSH("clwb %0", {0});',
    'ASM_FLUSH("clflushopt %0", {0});',
    'ASM_FLUSH(".byte 0x66; clflush %0", {0});',
    'ASM_FLUSH(".byte 0x66; xsaveopt %0", {0});',
]
FENCES = [
    "_mm_sfence();",
    "_mm_mfence();",
    "pmem_drain();",
    '__asm__ volatile("sfence" : : : "memory");',
    '__asm__ volatile("mfence" : : : "memory");',
]
# None of these is a fence for stores to persistent memory.
NO_FENCES = [
    "_mm_lfence();",
    "_mm_pause();",
    '__asm__ volatile("" : : : "memory");',
    '__asm__ volatile("lfence" : : : "memory");',
    '__asm__ volatile("pause" : : : "memory");',
    '__asm__ volatile("nop");',
    "__atomic_thread_fence(__ATOMIC_SEQ_CST);",
    "__atomic_signal_fence(__ATOMIC_SEQ_CST);",
]
ATOMIC = [
    "__atomic_store_n(&{0}, {1}, __ATOMIC_RELEASE);",
    "__atomic_fetch_add(&{0}, {1}, __ATOMIC_SEQ_CST);",
    "__sync_fetch_and_xor(&{0}, {1});",
    "same((void *)(uintptr_t)__atomic_exchange_n(&{0}, {1}, __ATOMIC_ACQ_REL));",
]
# The flags of libpmem's copies; those in the list only advise how to store.
NO_DRAIN, NO_FLUSH, ADVICE = 1, 32, [0, 0, 2, 4, 8, 16]


class Operation(NamedTuple):
    """Lines of C, and what they do to persistent memory for values of the variables."""

    text: str
    run: Callable[[Region, Values], None]


class Operations:
    """Random operations. Each constant that is stored is another one than before, so that no compiler finds a store without an effect."""

    def __init__(self, chance: random.Random, places: Places) -> None:
        self.chance, self.places, self.last = chance, places, chance.randrange(1 << 20)
        self.forms = [
            (self.assign, 6),
            (self.change, 2),
            (self.fill, 2),
            (self.copy, 2),
            (self.copy_text, 1),
            (self.assign_bits, 2),
            (self.assign_group, 2),
            (self.call_libpmem, 2),
            (self.assign_atomically, 1),
            (self.stream, 1),
            (self.flush, 5),
            (self.flush_range, 2),
            (self.fence, 4),
            (self.no_fence, 1),
            (self.persist, 2),
            (self.check, 3),
            (self.mix, 2),
        ]

    def constant(self, size: int) -> str:
        """A number that fills a size and was not used before, with no byte 0."""
        self.last += 1
        raw = (self.last * 0x9E3779B97F4A7C15 + (self.last << 64)) & (1 << 8 * size) - 1
        filled = int.from_bytes(bytes(byte or 1 for byte in raw.to_bytes(size, "little")), "little")
        if size == 16:
            return f"(((unsigned __int128){filled >> 64:#x}ull << 64) | {filled & (1 << 64) - 1:#x}ull)"
        return f"{filled:#x}ull"

    def any(self, variables: str) -> Operation:
        """A random operation."""
        forms, weights = zip(*self.forms)
        chosen: Callable[[str], Operation] = self.chance.choices(forms, weights=weights)[0]
        return chosen(variables)

    def assign(self, variables: str) -> Operation:
        """A store of a scalar."""
        place = self.places.scalar(variables)
        return Operation(
            f"{place.text} = ({place.type}){self.constant(place.size)};",
            lambda region, values: region.store(place.object.number, place.offset(values), place.size),
        )

    def change(self, variables: str) -> Operation:
        """A change of a scalar. That of a floating-point number may leave it as it is, so a compiler may find that it needs no store."""
        place = self.places.scalar(variables)
        if place.type in FLOATS:
            return Operation(
                f'{place.text} {self.chance.choice(["+=", "*=", "-=", "/="])} ({place.type}){self.constant(place.size)};',
                lambda region, values: region.may_store(place.object.number, place.offset(values), place.size),
            )
        return Operation(
            f'{place.text} {self.chance.choice(["+=", "^=", "-="])} ({place.type}){self.constant(place.size)};',
            lambda region, values: region.store(place.object.number, place.offset(values), place.size),
        )

    def assign_atomically(self, variables: str) -> Operation:
        """An atomic store or change; with one thread it is a plain one, and no fence."""
        place = self.places.scalar(variables)
        if place.size > 8 or place.type in FLOATS:
            return self.fence(variables)
        return Operation(
            self.chance.choice(ATOMIC).format(place.text, f"({place.type}){self.constant(place.size)}"),
            lambda region, values: region.store(place.object.number, place.offset(values), place.size),
        )

    def stream(self, variables: str) -> Operation:
        """A non-temporal store, which is a store and a flush here: it needs a fence."""
        place = self.places.scalar(variables)
        form = {
            4: "_mm_stream_si32((int *)&{0}, (int){1});",
            8: "_mm_stream_si64((long long *)&{0}, (long long){1});",
        }.get(place.size)
        if form is None or place.type in FLOATS:
            return self.assign(variables)

        def run(region: Region, values: Values) -> None:
            region.store(place.object.number, place.offset(values), place.size)
            region.flush(place.object.number, place.offset(values))

        return Operation(form.format(place.text, self.constant(place.size)), run)

    def stores(self, span: Span) -> Callable[[Region, Values], None]:
        """The effect of a store of all bytes of a range."""
        return lambda region, values: region.store(span.object.number, span.offset(values), span.size(values))

    def fill(self, variables: str) -> Operation:
        """`memset`."""
        span = self.places.span(variables)
        return Operation(f"memset({span.text}, (int){self.constant(1)}, {span.size_text});", self.stores(span))

    def source(self) -> str:
        """The address of 96 bytes that were not stored before, in a volatile array."""
        return f"fresh({self.constant(4)})"

    def copy(self, variables: str) -> Operation:
        """`memcpy` or `memmove`."""
        span, name = self.places.span(variables), self.chance.choice(["memcpy", "memmove", "__builtin_memcpy"])
        return Operation(f"{name}({span.text}, {self.source()}, {span.size_text});", self.stores(span))

    def copy_text(self, variables: str) -> Operation:
        """`strcpy` of a text that fills the range."""
        span = self.places.span(variables, 30, True)
        self.last += 1
        text = f"{self.last * 7919}, a text of letters and digits"[: int(span.size_text) - 1]
        return Operation(f'strcpy({span.text}, "{text}");', self.stores(span))

    def assign_bits(self, variables: str) -> Operation:
        """A store to a bit-field, which stores its bytes and may store the others of its unit."""
        chosen = [one for one in self.places.objects if one.bits]
        if not chosen:
            return self.assign(variables)
        target = self.chance.choice(chosen)
        bits = self.chance.choice(target.bits)
        first, last = bits.first // 8, (bits.first + bits.width - 1) // 8
        change = "^= 1" if bits.width < 9 else f"+= {self.constant(8)}"

        def run(region: Region, _: Values) -> None:
            region.may_store(target.number, bits.offset, bits.unit)
            region.store(target.number, bits.offset + first, last - first + 1)

        return Operation(f"{target.name}.{bits.path} {change};", run)

    def assign_group(self, variables: str) -> Operation:
        """A store of a whole struct, which may store its padding."""
        chosen = [one for one in self.places.objects if one.groups]
        if not chosen:
            return self.fill(variables)
        target = self.chance.choice(chosen)
        group = self.chance.choice(target.groups)
        text = f'({group.type}){{{", ".join(f"({leaf.type}){self.constant(leaf.size)}" for leaf in group.leaves)}}}'
        if self.chance.random() < 0.5:
            text = f"*({group.type} *)same(&{text})"

        def run(region: Region, _: Values) -> None:
            region.may_store(target.number, group.offset, group.size)
            for leaf in group.leaves:
                region.store(target.number, leaf.offset, leaf.size)

        return Operation(f"{target.name}.{group.path} = {text};", run)

    def call_libpmem(self, variables: str) -> Operation:
        """A copy or a fill by libpmem, with its flags."""
        span = self.places.span(variables)
        flags = self.chance.choice([0, NO_DRAIN, NO_FLUSH, NO_FLUSH | NO_DRAIN]) | self.chance.choice(ADVICE)
        filled = self.chance.random() < 0.4
        value = f"(int){self.constant(1)}" if filled else self.source()
        name = "memset" if filled else self.chance.choice(["memcpy", "memmove"])
        call = f"pmem_{name}({span.text}, {value}, {span.size_text}, {flags});"
        if flags in (0, NO_DRAIN) and self.chance.random() < 0.5:
            call = f'pmem_{name}_{"nodrain" if flags else "persist"}({span.text}, {value}, {span.size_text});'

        def run(region: Region, values: Values) -> None:
            range_ = span.object.number, span.offset(values), span.size(values)
            region.store(*range_)
            if not flags & NO_FLUSH:
                region.flush(*range_)
                if not flags & NO_DRAIN:
                    region.fence()

        return Operation(call, run)

    def flush(self, variables: str) -> Operation:
        """A flush of one cache line."""
        span = self.places.span(variables)
        return Operation(
            self.chance.choice(FLUSHES).format(span.text),
            lambda region, values: region.flush(span.object.number, span.offset(values)),
        )

    def flush_range(self, variables: str) -> Operation:
        """A flush of a range by libpmem."""
        span = self.places.span(variables, 300)
        return Operation(
            f"pmem_flush({span.text}, {span.size_text});",
            lambda region, values: region.flush(span.object.number, span.offset(values), span.size(values)),
        )

    def persist(self, variables: str) -> Operation:
        """A flush of a range with a fence."""
        span = self.places.span(variables, 300)
        return Operation(
            f"pmem_persist({span.text}, {span.size_text});",
            lambda region, values: region.persist(span.object.number, span.offset(values), span.size(values)),
        )

    def fence(self, _: str) -> Operation:
        """A fence."""
        return Operation(self.chance.choice(FENCES), lambda region, _: region.fence())

    def no_fence(self, _: str) -> Operation:
        """What orders no store to persistent memory."""
        return Operation(self.chance.choice(NO_FENCES), lambda region, _: None)

    def check(self, variables: str) -> Operation:
        """A check of a range."""
        span = self.places.span(variables, 300)
        return Operation(
            f"pm_assert({span.text}, {span.size_text});",
            lambda region, values: region.check(span.object.number, span.offset(values), span.size(values)),
        )

    def mix(self, variables: str) -> Operation:
        """A number that goes into the output."""
        index = self.places.index(64, variables)
        return Operation(f"mix({index.text});", lambda region, _: None)
