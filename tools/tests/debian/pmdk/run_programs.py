#!/usr/bin/env python3
"""The whole of PMDK's libpmemobj, unchanged, with PMDK's own maps and examples, through tools/lower, hippo and hippo-c.

PMDK's source is fetched from Debian; nothing of it is part of this repository. For each program and input the native build, `hippo run`,
and the build of the repaired text must print the same; `rerun` must say `after 0`; and `hippo-c check` must report nothing but
what PMDK itself declares volatile. It prints a table, and the exit code is 1 if something differs."""
from __future__ import annotations

import json
import os
import re
import sys
import tempfile
from concurrent.futures import ThreadPoolExecutor

sys.dont_write_bytecode = True
HERE = os.path.dirname(os.path.abspath(__file__))
sys.path[:0] = [HERE, os.path.dirname(HERE)]
from steps import Differs, build, is_same, lines_of, run  # noqa: E402

from library import EXAMPLE  # noqa: E402
from work import (  # noqa: E402
    ANY_CODE,
    MAPS,
    Piece,
    Timing,
    Work,
    arguments_of,
    ended,
    print_head,
    print_row,
    setting_of,
    source_of,
)

HEADINGS = (
    "program",
    "lines of C",
    "lowered lines",
    "entries",
    "declared",
    "other reports",
    "flushes",
    "fences",
    "hoists",
    "clones",
    "after",
    "processor seconds",
)
COUNTS = ("flushes", "fences", "hoists", "clones", "after")
PIECES = [
    MAPS,
    Piece("queue", counted=["queue/queue.c"]),
    Piece("slab_allocator", sources=["slab_allocator/slab_allocator.c"], counted=["slab_allocator/main.c"]),
    Piece("string_store_tx", counted=["string_store_tx/writer.c", "string_store_tx/reader.c"]),
    Piece("fifo", counted=["linkedlist/fifo.c"]),
]


class Programs(Work):
    """The programs, and what is tried of each."""

    def declared(self, piece: Piece) -> list[tuple[int, int]]:
        """By input: the number of reports that PMDK declares volatile, and that of the others; as `hippo-c check` counts them."""
        answer, inputs = f"{self.folder}/{piece.name}.answer", f"{self.folder}/{piece.name}.inputs"
        with open(inputs, "w", encoding="ascii") as file:
            file.write("\n".join(" ".join(map(str, numbers)) for numbers in (piece.inputs or {"": []}).values()) + "\n")
        self.answer("check", piece, "--no-coverage", "--inputs", inputs, "--json", answer)
        with open(answer, encoding="utf-8") as file:
            inputs_found = json.load(file)["inputs"]
        return [(sum(item["reports"] for item in found["declared"]), found["reports"]) for found in inputs_found]

    def try_input(self, name: str, text: str, program: str, numbers: list[int]) -> dict[str, int]:
        """Takes a program on an input through all steps; the number of entries, and what `repair` and `rerun` count."""
        hippo, words = self.setting.hippo, ["--", *map(str, numbers)]
        expected = self.expected(program, numbers)
        self.same("hippo run", text, words, expected)
        trace, mended = f"{self.folder}/{name}.trace", f"{self.folder}/{name}.repaired.ll"
        with open(trace, "w", encoding="ascii") as file:
            file.write(run([hippo, "record", text, *words], self.folder, codes=ANY_CODE).stdout)
        repaired = run([hippo, "repair", text, trace], self.folder)
        with open(mended, "w", encoding="latin-1") as file:
            file.write(repaired.stdout)
        counts = {key: int(value) for key, value in re.findall(r"^(\w+) (\d+)$", repaired.stderr, re.M)}
        said = run([hippo, "rerun", text, trace], self.folder, codes=ANY_CODE).stderr
        if (after := re.findall(r"^after (\d+)$", said, re.M)) != ["0"]:
            raise Differs(f"rerun says after {after}")
        self.same("the repaired text", mended, words, expected)
        built = build(mended, self.setting, self.folder)
        done = run(["sh", "-c", f'echo {" ".join(map(str, numbers))} | {built}'], self.folder, codes=ANY_CODE)
        is_same("the repaired build", done.stdout, done.returncode, expected)
        found = {"entries": lines_of([trace]), **counts, "after": 0}
        os.unlink(mended)
        os.unlink(trace)
        return found

    def same(self, what: str, text: str, words: list[str], expected: tuple[str, int]) -> None:
        """A run of hippo must stop, and print what the native build prints."""
        done = run([self.setting.hippo, "run", text, *words], self.folder, codes=ANY_CODE)
        last = ended(done)
        if not last.startswith("stop "):
            raise Differs(f"{what}: {last}")
        is_same(what, done.stdout, int(last.split()[1]) % 256, expected)

    def rows(self, piece: Piece) -> list[tuple[object, ...]]:
        """The rows of a piece, one for each input."""
        timing, text = Timing(), f"{self.folder}/{piece.name}.ll"
        with open(text, "w", encoding="latin-1") as file:
            file.write(self.lowered(piece))
        seconds = f"{timing.seconds():.1f}"
        program, declared = self.native(piece), self.declared(piece)
        counted = [*(f"{self.library.source}/{EXAMPLE}/{name}" for name in piece.counted), *self.files_of(piece)[1:]]
        lines, rows = (lines_of(counted), lines_of([text])), []
        for (name, numbers), (quiet, loud) in zip((piece.inputs or {piece.name: []}).items(), declared):
            found = self.try_input(name, text, program, numbers)
            if loud:
                raise Differs(f"{name}: {loud} reports that PMDK does not declare")
            rows.append((name, *lines, found["entries"], quiet, loud, *(found[count] for count in COUNTS), seconds))
        return rows


def main() -> int:
    """Tries each program; returns 0 if all of them pass."""
    options, failures = arguments_of(__doc__).parse_args(), 0
    print_head(HEADINGS)
    with tempfile.TemporaryDirectory() as scratch:
        programs = Programs(source_of(options), setting_of(options, scratch))
        with ThreadPoolExecutor(options.jobs) as workers:
            list(workers.map(programs.object_of, [*programs.library.files, *programs.library.maps]))
        for piece in PIECES:
            if options.names and piece.name not in options.names:
                continue
            try:
                for row in programs.rows(piece):
                    print_row(row)
            except Differs as difference:
                failures += 1
                print(f"FAILED {piece.name}: {difference}", flush=True)
    return 1 if failures else 0


if __name__ == "__main__":
    sys.exit(main())
