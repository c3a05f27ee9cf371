#!/usr/bin/env python3
"""Examples and real C, explored and repaired: what hippo-c explore finds from a short input, and whether a loop of repairs and searches ends.

The real C are those pieces of pieces.py whose drivers take the number of rounds and each drawn number from the input (EXPLORED in
draw.h). After each search the program is repaired for what it found, and explored again from another seed, until nothing new is reported.
The traces of the engine on the inputs of each corpus are compared with those of hippo, byte by byte. It prints a row for each program; the
exit code is 1 if a report is left after the last repair, or if a trace differs."""
from __future__ import annotations

import argparse
import json
import os
import sys
import tempfile

sys.dont_write_bytecode = True
from packages import Packages  # noqa: E402
from pieces import PIECES, Piece  # noqa: E402
from programs import sources_of  # noqa: E402
from steps import Differs, clang_flags, run, source_files  # noqa: E402
from typing import Any

sys.path.insert(0, os.path.abspath(os.path.join(os.path.dirname(__file__), "../..")))
from hippo_c.confirming import same_trace  # noqa: E402
from hippo_c.crashed_inputs import rows_of  # noqa: E402
from hippo_c.native import Engine  # noqa: E402
from hippo_c.program import Program  # noqa: E402
from hippo_c.running import hippo_program  # noqa: E402

NAMES = (
    "btrfs_rbtree",
    "redis_rax",
    "redis_listpack",
    "redis_intset",
    "musl_tsearch",
    "uthash",
    "qp_trie",
    "libavl",
    "lea_malloc",
)
HEADINGS = (
    "piece",
    "runs",
    "inputs",
    "blocks: given",
    "found",
    "all",
    "groups",
    "failures",
    "images",
    "behaviours",
    "groups after each repair",
    "equal traces",
)
MOST_REPAIRS = 6
MOST_TRACES = 200  # that are compared for each text
# The examples, each with its input.
EXAMPLES = {
    "examples/ring_buffer/ring.c": "12 -5 3 -10 0",
    "examples/from_c/undo.c": "3 0 1 30 1 2 200 2 7 100",
    "examples/from_c/store.ll": "1 5 40 1 6 30 3 5 0",
    "examples/from_c/log.c": "",
    "examples/from_c/allocator.c": "",
    "examples/undo_log/account.ll": "30",
    "examples/key_value_log/log.ll": "",
    "examples/hoisted_copy/copy.ll": "",
    "examples/one_store/one_store.ll": "",
    "examples/spared_flush/notes.ll": "",
    "examples/two_inputs/account.ll": "0 25",
    "examples/totals/totals.c": "5",
    "examples/hash_table/table.cpp": "",
}
STANDARDS = {".cpp": ["--", "-std=c++20"]}
SEED = ["3", *(str(number * 7 % 23) for number in range(1, 60))]
TOP = os.path.abspath(os.path.join(os.path.dirname(__file__), "../../.."))


def parse() -> argparse.Namespace:
    """The options of the command line."""
    parser = argparse.ArgumentParser(description=__doc__, formatter_class=argparse.RawDescriptionHelpFormatter)
    parser.add_argument(
        "--folder",
        default=os.path.expanduser("~/.cache/hippo-debian"),
        help="where packages are kept from one run to the next",
    )
    parser.add_argument("--time", default="60", help="seconds of processor for each search (60)")
    parser.add_argument("--again", default="60", help="seconds of processor for each search after the repair (60)")
    parser.add_argument(
        "names", nargs="*", help="examples such as examples/from_c/undo.c, and pieces; without names, all of them"
    )
    return parser.parse_args()


def explored(text: str, folder: str, given: list[str], seed: int, seconds: str) -> dict[str, Any]:
    """The answer of explore on a lowered text. Each search writes a corpus of its own."""
    answer = f"{folder}/answer.{seed}.json"
    bounds = ["--range", "0-2000"] if given is SEED else []
    words = ["--input", *given, "--seed", str(seed), "--time", seconds, *bounds, "--corpus", f"corpus.{seed}"]
    command = [sys.executable, f"{TOP}/tools/hippo-c", "explore", text, *words, "--behaviours", "0", "--json", answer]
    ended = run(command, folder, codes=(0, 1, 2))  # 2 where no image was tried, too
    if not os.path.exists(answer):
        raise Differs(f"hippo-c explore: {ended.stderr.strip()}")
    with open(answer, encoding="utf-8") as file:
        found: dict[str, Any] = json.load(file)
        return found


def groups_of(answer: dict[str, Any]) -> int:
    """The groups of reports, those after power cuts too."""
    return sum(len(one["groups"]) for one in answer["inputs"]) + len(answer["after_cuts"])


def lowered(words: list[str], folder: str) -> str:
    """The path of the lowered text of files."""
    with open(f"{folder}/lowered.ll", "w", encoding="latin-1") as file:
        file.write(run([f"{TOP}/tools/lower", "--lines", *words], folder).stdout)
    return f"{folder}/lowered.ll"


def lowered_piece(piece: Piece, source: str, folder: str) -> str:
    """The path of the lowered text of a piece."""
    flags = ["-DEXPLORED", *clang_flags(piece, source, folder)]
    return lowered([*piece.options, *source_files(piece, source), "--", *flags], folder)


def corpus_of(folder: str, seed: int) -> list[list[int]]:
    """The inputs that a search kept, without those with power cuts."""
    path = f"{folder}/corpus.{seed}"
    with open(path, encoding="ascii") as file:
        return [row.numbers for row in rows_of(file.read(), path) if not row.crashes]


def equal_traces(text: str, folder: str, inputs: list[list[int]]) -> int:
    """How many inputs have a trace of the engine; each is that of hippo, byte by byte."""
    with open(text, encoding="latin-1") as file:
        engine = Engine(Program(file.read()), folder)
    for numbers in inputs[:MOST_TRACES]:
        with open(f"{folder}/hippo.trace", "w", encoding="ascii") as file:
            words = [hippo_program(), "record", text, "--", *map(str, numbers)]
            file.write(run(words, folder, codes=tuple(range(128))).stdout)
        engine.record(numbers, f"{folder}/engine.trace")
        if not same_trace(f"{folder}/hippo.trace", f"{folder}/engine.trace"):
            raise Differs(f"the traces of the engine and of hippo differ on {numbers}")
    return min(len(inputs), MOST_TRACES)


def row(name: str, text: str, given: list[str], folder: str, seconds: tuple[str, str]) -> tuple[list[object], int]:
    """The row of a program, and the number of groups that are left; the seconds are those of the first and of each later search."""
    found = explored(text, folder, given, 1, seconds[0])
    groups, counts, left = groups_of(found), found["covered"], []
    inputs = corpus_of(folder, 1)
    traces = equal_traces(text, folder, inputs)
    seed, remaining = 1, groups
    while remaining and seed <= MOST_REPAIRS:
        repaired = f"{folder}/repaired.{seed}.ll"
        words = ["repair", text, "--inputs", f"corpus.{seed}", "-o", repaired]
        run([sys.executable, f"{TOP}/tools/hippo-c", *words], folder)
        seed, text = seed + 1, repaired
        remaining = groups_of(explored(text, folder, given, seed, seconds[1]))
        left.append(remaining)
        traces += equal_traces(text, folder, corpus_of(folder, seed))
    cells = [name, counts["runs"], len(inputs), counts["given_blocks"], counts["blocks_ran"], counts["blocks"], groups]
    images = f'{counts["images"]:.3g}'
    more = [len(found["failures"]), images, counts["behaviours"], ", ".join(map(str, left)) or "-", traces]
    return [*cells, *more], remaining


def row_of(
    name: str, pieces: dict[str, Piece], sources: dict[str, str], options: argparse.Namespace
) -> tuple[str, int]:
    """The line of the table for a program, and the number of groups that are left."""
    seconds = (options.time, options.again)
    with tempfile.TemporaryDirectory() as folder:
        try:
            if name in EXAMPLES:
                path = f"{TOP}/{name}"
                text = path if name.endswith(".ll") else lowered([path, *STANDARDS.get(name[-4:], [])], folder)
                cells, left = row(name, text, EXAMPLES[name].split(), folder, seconds)
            else:
                text = lowered_piece(pieces[name], sources[pieces[name].package], folder)
                cells, left = row(name, text, SEED, folder, seconds)
        except Differs as difference:
            return f"FAILED {name}: {difference}", 1
    return "| " + " | ".join(f"{cell:,}" if isinstance(cell, int) else str(cell) for cell in cells) + " |", left


def main() -> int:
    """Explores each program; returns 0 if no report is left."""
    options = parse()
    names = options.names or [*EXAMPLES, *NAMES]
    pieces = {piece.name: piece for piece in PIECES if piece.name in names}
    sources = sources_of(Packages(options.folder), list(pieces.values()))
    print("| " + " | ".join(HEADINGS) + " |\n|" + "---|" * len(HEADINGS), flush=True)
    all_left = 0
    for name in (name for name in names if name in EXAMPLES or pieces[name].package in sources):
        line, left = row_of(name, pieces, sources, options)
        all_left += left
        print(line, flush=True)
    return 1 if all_left else 0


if __name__ == "__main__":
    sys.exit(main())
