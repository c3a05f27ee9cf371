"""How time and memory grow: with entries, with the text, and with programs that grow in one way each."""

from __future__ import annotations

import resource
import shutil
import subprocess
import tempfile
from collections.abc import Callable
from dataclasses import dataclass
from pathlib import Path

import shapes
import texts
from measuring import MIB, Command, Hippo, exponent, figures, leave_out, peak, seconds, show, times

BENCH = Path(__file__).resolve().parent
STEEPEST = 1.1
LARGEST_TEXT = 16 * MIB


@dataclass(frozen=True)
class Shape:
    """Programs that grow in one way: their text for a size, three sizes, the commands, and the MB that each command may take at the
    largest size. A command without such a limit has a figure of its MB too."""

    name: str
    text: Callable[[int], str]
    sizes: tuple[int, int, int]
    commands: tuple[str, ...]
    most: dict[str, int]


SHAPES = [
    Shape(
        "calls with a loose store each",
        shapes.each_level,
        (1_000, 4_000, 16_000),
        ("record", "repair"),
        {"record": 64, "check": 256},
    ),
    Shape(
        "loose stores 16,000 calls deep",
        shapes.deep_stores,
        (1_500, 6_000, 24_000),
        ("record", "repair"),
        {"record": 64},
    ),
    Shape(
        "asserts of 1,000 loose stores",
        shapes.asserts_over_loose,
        (500, 2_000, 8_000),
        ("record",),
        {"record": 64, "check": 256},
    ),
    Shape("pointers given to a call", shapes.wide_call, (12_500, 50_000, 200_000), ("record", "check", "repair"), {}),
    Shape(
        "null pointers given to a call", shapes.wide_call_of_null, (12_500, 50_000, 200_000), ("record", "repair"), {}
    ),
    Shape("cases of a switch, each taken", shapes.wide_switch, (6_250, 25_000, 100_000), ("run",), {}),
    Shape("frames of 50,000 registers", shapes.deep_registers, (1_000, 4_000, 16_000), ("run",), {"run": 64}),
    Shape("allocations of an empty type", shapes.empty_blocks, (250_000, 1_000_000, 4_000_000), ("run",), {"run": 16}),
    Shape("loose lines", shapes.loose_lines, (62_500, 250_000, 1_000_000), ("run", "record"), {"run": 400}),
    Shape(
        "loose lines beside 100,000 fences",
        shapes.fences_beside_loose_lines,
        (62_500, 250_000, 1_000_000),
        ("run",),
        {},
    ),
    Shape(
        "asserts beside 2,500 loose lines, a store before each",
        shapes.asserts_beside_loose_lines,
        (325, 1_300, 5_200),
        ("check",),
        {"check": 100},
    ),
    Shape(
        "loose lines, all flushed after each store",
        shapes.flushes_of_loose_lines,
        (1_250, 5_000, 20_000),
        ("run", "record", "check"),
        {"check": 100},
    ),
    Shape(
        "loose lines, each reported at the end",
        shapes.loose_lines,
        (12_500, 50_000, 200_000),
        ("check",),
        {"check": 100},
    ),
    Shape("blocks with an edge back", shapes.back_edges, (6_250, 25_000, 100_000), ("run",), {}),
    Shape(
        "stores to one word",
        shapes.stores_to_one_word,
        (625_000, 2_500_000, 10_000_000),
        ("run", "record"),
        {"run": 16, "record": 64, "check": 64},
    ),
    Shape("prints", shapes.prints, (62_500, 250_000, 1_000_000), ("run",), {"run": 16}),
]


def command_on(hippo: Hippo, name: str, text: str) -> Command:
    """A command on a program, with the trace of its run if it takes one."""
    return hippo.command(name, text) if name in ("run", "record") else hippo.command(name, text, hippo.recorded(text))


def of_times(hippo: Hippo, title: str, name: str, sizes: list[int], files: list[str]) -> None:
    """The exponent by which the time of a command grows."""
    taken = times(min(hippo.runs, 3), *(command_on(hippo, name, file) for file in files))
    basis = ", ".join(f"{size:,}: {time:.3f} s" for size, time in zip(sizes, taken))
    show(title, exponent(sizes, taken), most=STEEPEST, basis=basis)


def of_peak(hippo: Hippo, title: str, name: str, file: str, most: int | None) -> None:
    """The peak of a command."""
    show(title, peak(command_on(hippo, name, file)), most=most, form=".0f")


def of_shape(hippo: Hippo, shape: Shape) -> None:
    """The exponent of each command over the sizes, and the peaks at the largest."""
    sizes = [hippo.size(size) for size in shape.sizes]
    with tempfile.TemporaryDirectory(dir=hippo.folder) as folder:
        room = Hippo(hippo.program, folder, hippo.runs, hippo.scale)
        files = [room.file(f"{size}.ll", shape.text(size)) for size in sizes]
        for name in shape.commands:
            title = f"{name}: exponent, {shape.name}"
            figures(title, of_times, room, title, name, sizes, files)
        for name in dict.fromkeys((*shape.commands, *shape.most)):
            title = f"{name}: MB, {sizes[-1]:,} {shape.name}"
            figures(title, of_peak, room, title, name, files[-1], shape.most.get(name))


def of_one_to_another(hippo: Hippo) -> None:
    """Programs that must cost nearly the same, and the cost of a print."""

    def taken(*given: tuple[str, str]) -> list[float]:
        return times(hippo.runs, *(hippo.command("run", hippo.file(name, text)) for name, text in given))

    count = hippo.size(20_000)
    large, small = taken(
        ("large.ll", shapes.calls_with_block(count, 15 * MIB)), ("small.ll", shapes.calls_with_block(count, 16))
    )
    show("run: a call with a block of 15 MiB to one of 16 bytes", large / small, most=2, basis=seconds(large, small))
    large, small = taken(
        ("large.ll", shapes.asserts_over_region(64 * MIB)), ("small.ll", shapes.asserts_over_region(MIB // 4))
    )
    show("run: asserts over 64 MiB to asserts over 256 KiB", large / small, most=2, basis=seconds(large, small))
    count = hippo.size(1_000_000)
    printed, plain = taken(("prints.ll", shapes.prints(count)), ("turns.ll", shapes.turns(count)))
    show(
        "run: nanoseconds a print, 10^6 prints",
        (printed - plain) / count * 1e9,
        basis=seconds(printed, plain),
        form=".0f",
    )


def over_entries(hippo: Hippo) -> None:
    """`record`, `check` and `repair` over traces of 10^4, 10^5 and 10^6 entries."""
    flush = str(BENCH / "flush.ll")
    turns = [hippo.size(number) for number in (3_333, 33_333, 333_333)]
    entries = [3 * number + 4 for number in turns]
    traces = [hippo.recorded(flush, number) for number in turns]
    commands = [hippo.command("run", flush, turns[-1])]
    for number, trace in zip(turns, traces):
        commands.append(hippo.command("record", flush, number, out=f"{hippo.folder}/written"))
        commands += [hippo.command(name, flush, trace) for name in ("check", "repair")]
    run, *taken = times(hippo.runs, *commands)
    for place, name in enumerate(("record", "check", "repair")):
        each = taken[place::3]
        show(
            f"{name}: exponent from 10^4 to 10^6 entries", exponent(entries, each), most=STEEPEST, basis=seconds(*each)
        )
    show("record: times the time of run, 10^6 entries", taken[6] / run, basis=seconds(taken[6], run))
    show("check: times the time of run, 10^6 entries", taken[7] / run, basis=seconds(taken[7], run))


def over_texts(hippo: Hippo) -> None:
    """Reading, with all checks of soundness, of texts of 1, 4 and 16 MiB."""
    sizes = [hippo.size(size) for size in (MIB, 4 * MIB, LARGEST_TEXT)]
    files = [texts.write(f"{hippo.folder}/text{size}.ll", "mixed functions", size) for size in sizes]
    ours = times(hippo.runs, *(hippo.command("run", file) for file in files))
    show("reading: exponent from 1 to 16 MiB of text", exponent(sizes, ours), most=STEEPEST, basis=seconds(*ours))
    if shutil.which("llvm-as-19") is None:
        leave_out("reading beside LLVM's assembler", ["llvm-as-19"])
        return
    llvm = times(hippo.runs, *(Command(("llvm-as-19", "-o", "/dev/null", file)) for file in files[1:]))
    show("reading: times the time of llvm-as, 4 MiB", ours[1] / llvm[0], basis=seconds(ours[1], llvm[0]))
    show("reading: times the time of llvm-as, 16 MiB", ours[2] / llvm[1], basis=seconds(ours[2], llvm[1]))


def of_memory(hippo: Hippo) -> None:
    """Peaks in MB."""
    flush, loose, turns = (str(BENCH / f"{name}.ll") for name in ("flush", "loose", "turns"))
    few, many = hippo.size(33_333), hippo.size(333_333)
    region = hippo.file("region.ll", shapes.untouched_region(64 * MIB))
    stores = hippo.file("stores.ll", shapes.stores_to_one_word(hippo.size(100_000_000)))
    rows: list[tuple[str, int | None, list[str]]] = [
        ("run: MB, 10^8 turns without a store", 8, ["run", turns, str(hippo.size(25_000_000))]),
        ("run: MB, a region of 64 MiB that nothing touches", 16, ["run", region]),
        ("run: MB, 10^8 stores to one word", 16, ["run", stores]),
        ("record: MB, 10^8 stores to one word", 64, ["record", stores]),
        ("check: MB, 10^6 entries", 8, ["check", flush, hippo.recorded(flush, many)]),
        ("check: MB, 10^5 entries and one byte never flushed", 8, ["check", loose, hippo.recorded(loose, few)]),
        ("check: MB, 10^6 entries and one byte never flushed", 8, ["check", loose, hippo.recorded(loose, many)]),
        ("demo: MB, size 50,000", None, ["demo", "1", str(hippo.size(50_000))]),
    ]
    for title, most, words in rows:
        show(title, peak(hippo.command(*words)), most=most, form=".0f")


def of_large_texts(hippo: Hippo) -> None:
    """The peaks of `run` and `repair` on texts of 16 MiB: the worst of several forms, with the form."""
    size = hippo.size(LARGEST_TEXT)
    peaks: dict[str, list[tuple[float, str]]] = {"run": [], "repair": []}
    for number, form in enumerate(texts.FORMS):
        file = texts.write(f"{hippo.folder}/form{number}.ll", form, size)
        for name, found in peaks.items():
            found.append((peak(command_on(hippo, name, file)), form))
    for name, found in peaks.items():
        worst, form = max(found)
        mixed = next(high for high, form in found if form == "mixed functions")
        title, basis = (
            f"{name}: MB, a text of 16 MiB, the worst of {len(found)} forms",
            f"{form}; mixed functions: {mixed:.0f}",
        )
        show(title, worst, most=400, basis=basis, form=".0f")


def with_small_stack(hippo: Hippo) -> None:
    """The exit code of a run of calls 16,000 deep when the stack of the process has 32 KiB."""

    def small() -> None:
        resource.setrlimit(resource.RLIMIT_STACK, (32 << 10, 32 << 10))

    words = hippo.command("run", BENCH / "deep.ll", 1).words
    done = subprocess.run(words, stdin=subprocess.DEVNULL, capture_output=True, preexec_fn=small, check=False)
    show(
        "run: exit code with a stack of 32 KiB",
        abs(done.returncode),
        most=0,
        basis=f"code {done.returncode}",
        form=".0f",
    )


def measure(hippo: Hippo) -> None:
    """The figures over entries and texts."""
    figures("over entries", over_entries, hippo)
    figures("over texts", over_texts, hippo)


def measure_shapes(hippo: Hippo) -> None:
    """The figures of programs that grow in one way each."""
    for shape in SHAPES:
        of_shape(hippo, shape)
    figures("what has to cost nearly the same", of_one_to_another, hippo)


def measure_memory(hippo: Hippo) -> None:
    """Peaks, and a small stack."""
    figures("peaks", of_memory, hippo)
    figures("texts of 16 MiB", of_large_texts, hippo)
    figures("a small stack", with_small_stack, hippo)
