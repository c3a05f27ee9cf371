#!/usr/bin/env python3
"""Hostile input to the built program: files that are cut or damaged at each byte, texts of 16 MiB of one form, files that
come byte by byte, and a deep run. Each run must end with an exit code of docs/COMMANDS.md, with the text of that code on
standard error, and with nothing but an answer on standard output. A line shows each answer that is wrong; the last line has
the counts. HIPPO_PROGRAM names another program than out/hippo."""

from __future__ import annotations

import concurrent.futures
import os
import re
import subprocess
import sys
import tempfile
import threading
from pathlib import Path
from typing import IO, Iterator, List, NamedTuple

sys.dont_write_bytecode = True
from hostile_texts import DEEP, LARGE, filled  # noqa: E402

TOP = Path(__file__).resolve().parent.parent
HIPPO = os.environ.get("HIPPO_PROGRAM", str(TOP / "out" / "hippo"))
# Each byte of a file is replaced by each of these: ends of lines and tokens, digits, letters, and bytes of no text.
DAMAGES = b'\0\n ";%@,({]-09z\xff'
SOUNDNESS = "duplicate|unknown|mismatch|no main|unassigned|bad extern|bad global|bad edge|too large"
TEXT_LINE = re.compile(r"hippo: program line (\d+): (syntax|unsupported|range|depth)\n")
FORM_LINE = re.compile(rf"hippo: program: ({SOUNDNESS}) at (program|global \d+|extern \d+|function \d+.*)\n")
TRACE_LINE = re.compile(r"hippo: trace entry (\d+): (malformed|differs|early|extra)\n")
COUNTS = re.compile(r"reports \d+\nflushes \d+\nfences \d+\nhoists \d+\nclones \d+\n")


class Answer(NamedTuple):
    """The exit code of a run and its two texts."""

    code: int
    out: bytes
    notes: str


class Cases:
    """How many cases passed and failed."""

    def __init__(self) -> None:
        self.passed = self.failed = 0

    def count(self, name: str, faults: List[str]) -> None:
        """Counts a case, which passed if it has no faults, and prints its first faults."""
        if faults:
            self.failed += 1
        else:
            self.passed += 1
        for fault in faults[:3]:
            print(f"hostile input: {name}: {fault}")

    def compare(self, name: str, got: Answer, wanted: Answer) -> None:
        """Counts a case, which passed if a run gave the expected answer."""
        self.count(name, [] if got == wanted else [str(got)])


def answer(
    *words: str | bytes,
    memory: int | None = None,
    seconds: int | None = None,
    stack: int | None = None,
    stdin: int = subprocess.DEVNULL,
    stdout: int | IO[bytes] = subprocess.PIPE,
) -> Answer:
    """The answer of a run, with limits of memory in MiB and seconds of processor time, or of the stack in KiB."""
    command = [HIPPO, *words]
    if stack:
        command = ["sh", "-c", f'ulimit -s {stack}; exec "$0" "$@"', *command]
    if memory:
        command = ["sh", "-c", f'ulimit -v {memory * 1024}; ulimit -t {seconds}; exec "$0" "$@"', *command]
    ran = subprocess.run(command, stdin=stdin, stdout=stdout, stderr=subprocess.PIPE, timeout=600, check=False)
    return Answer(ran.returncode, ran.stdout or b"", ran.stderr.decode(errors="replace"))


def is_answer(got: Answer) -> bool:
    """Whether an answer of `repair` is one of docs/COMMANDS.md: a text with its counts, or the line of a refusal alone."""
    if got.code == 0:
        return bool(got.out) and bool(COUNTS.fullmatch(got.notes))
    forms = {5: (TEXT_LINE, FORM_LINE), 6: (TRACE_LINE,)}.get(got.code, ())
    return not got.out and any(form.fullmatch(got.notes) for form in forms)


def last_line(text: bytes) -> int:
    """The line of the last byte, counted from 1."""
    return 1 + text[:-1].count(b"\n")


def repairs(variants: List[bytes], program: str | None, trace: str | None) -> Iterator[tuple[bytes, Answer]]:
    """Runs `repair` over variants of the file that is not named, and gives each variant with its answer."""
    with tempfile.TemporaryDirectory() as folder, concurrent.futures.ThreadPoolExecutor(os.cpu_count()) as pool:

        def repair(number: int, text: bytes) -> Answer:
            changed = f"{folder}/{number}"
            Path(changed).write_bytes(text)
            got = answer("repair", program or changed, trace or changed)
            os.remove(changed)
            return got

        yield from zip(variants, pool.map(repair, range(len(variants)), variants))


def cut_program(text: bytes, trace: str, whole: Answer) -> Iterator[str]:
    """Each prefix is refused at its last line, or lacks `main` if it consists of whole items, or is the whole program."""
    ends = [0] + [at.end() for at in re.finditer(rb'i64 0(?=,)|"\.pm"|^\}', text, re.M)]
    prefixes = [text[:length] for length in range(len(text))]
    for prefix, got in repairs(prefixes, None, trace):
        line = TEXT_LINE.fullmatch(got.notes)
        if len(prefix.rstrip()) == ends[-1]:
            passed = got == whole
        elif len(prefix.rstrip()) in ends:
            passed = got == Answer(5, b"", "hippo: program: no main at program\n")
        else:
            there = line is not None and int(line[1]) == last_line(prefix) and line[2] in ("syntax", "unsupported")
            passed = got[:2] == (5, b"") and there
        if not passed:
            yield f"the first {len(prefix)} bytes: {got}"


def cut_trace(text: bytes, program: str, whole: Answer) -> Iterator[str]:
    """Each prefix is refused at its last entry, or at the first entry that it lacks."""
    prefixes = [text[:length] for length in range(len(text))]
    for prefix, got in repairs(prefixes, program, None):
        line = TRACE_LINE.fullmatch(got.notes)
        last = prefix.count(b"\n") + 1
        if prefix + b"\n" == text:
            passed = got == whole
        else:
            there = line is not None and int(line[1]) in (last, last + 1) and line[2] != "extra"
            passed = got[:2] == (6, b"") and there
        if not passed:
            yield f"the first {len(prefix)} bytes: {got}"


def damages(text: bytes) -> Iterator[tuple[int, bytes]]:
    """Each place of a text with the text that has another byte there, for several other bytes."""
    for place, old in enumerate(text):
        for new in DAMAGES:
            if new != old:
                yield place, text[:place] + bytes([new]) + text[place + 1 :]


def damaged(text: bytes, program: str | None, trace: str | None) -> Iterator[str]:
    """A damaged file is refused at the damage or after it, or is another valid file."""
    found = list(damages(text))
    variants = [variant for _, variant in found]
    for (place, _), (variant, got) in zip(found, repairs(variants, program, trace)):
        line = (TRACE_LINE if program else TEXT_LINE).fullmatch(got.notes)
        damaged_line = 1 + text[:place].count(b"\n")
        if not is_answer(got) or line and not damaged_line <= int(line[1]) <= last_line(variant) + 1:
            yield f"byte {place} as {variant[place : place + 1]!r}: {got}"


def drip(text: bytes, path: str | int) -> None:
    """Writes a file byte by byte, with one write for each."""
    with open(path, "wb", buffering=0) as file:
        try:
            for place in range(len(text)):
                file.write(text[place : place + 1])
        except BrokenPipeError:
            return  # the program ended without reading all of it, and its answer shows why


def dripped(folder: str, program: bytes, trace: bytes, whole: Answer) -> Iterator[str]:
    """Both files as pipes that are written byte by byte, and the program as standard input."""
    for name, text in (("program", program), ("trace", trace)):
        os.mkfifo(f"{folder}/{name}")
        threading.Thread(target=drip, args=(text, f"{folder}/{name}"), daemon=True).start()
    got = answer("repair", f"{folder}/program", f"{folder}/trace")
    if got != whole:
        yield f"two pipes: {got}"
    reader, writer = os.pipe()
    threading.Thread(target=drip, args=(program, writer), daemon=True).start()
    Path(folder, "stored").write_bytes(trace)
    got = answer("repair", "/dev/stdin", f"{folder}/stored", stdin=reader)
    os.close(reader)
    if got != whole:
        yield f"standard input: {got}"


def large_programs(cases: Cases, folder: str) -> None:
    """A program of 16 MiB of one form is refused or run, in at most 400 MiB."""
    for large in LARGE:
        Path(folder, "large").write_bytes(large.text())
        got = answer("run", f"{folder}/large", memory=400, seconds=2)
        cases.compare(f"16 MiB, {large.name}", got, Answer(large.code, b"", large.notes))


def large_traces(cases: Cases, folder: str, program: str, header: bytes) -> None:
    """A trace of 16 MiB is refused at its first malformed entry, with and without a header before it."""
    for name, front, unit, entry in (
        ("no separator", b"", b"0", 1),
        ("no separator after the header", header, b"STORE;", 3),
        ("separators", b"", b"\n", 1),
        ("separators after the header", header, b"|", 3),
    ):
        Path(folder, "large").write_bytes(filled(front, unit))
        got = answer("check", program, f"{folder}/large", memory=100, seconds=2)
        cases.compare(f"a trace of 16 MiB, {name}", got, Answer(6, b"", f"hippo: trace entry {entry}: malformed\n"))


def deep_run(cases: Cases, folder: str) -> None:
    """4,000 levels of calls and a million stores, recorded and checked in at most 1 GiB."""
    Path(folder, "deep.ll").write_bytes(DEEP)
    with open(f"{folder}/deep.trace", "wb") as file:
        got = answer("record", f"{folder}/deep.ll", memory=1024, seconds=60, stdout=file)
    cases.compare("a deep run is recorded", got, Answer(0, b"", "stop 0\n"))
    got = answer("check", f"{folder}/deep.ll", f"{folder}/deep.trace", memory=1024, seconds=60)
    cases.compare("a deep run is checked", got, Answer(0, b"", "reports 0\n"))


def small_stack(cases: Cases, folder: str) -> None:
    """Calls 16,000 deep are run and recorded with a stack of 32 KiB, and checked with a stack of 40 KiB."""
    deep = str(TOP / "bench" / "deep.ll")
    cases.compare("a deep run in a small stack", answer("run", deep, "1", stack=32), Answer(0, b"", "stop 0\n"))
    with open(f"{folder}/small.trace", "wb") as file:
        got = answer("record", deep, "1", stack=32, stdout=file)
    cases.compare("a deep run is recorded in a small stack", got, Answer(0, b"", "stop 0\n"))
    got = answer("check", deep, f"{folder}/small.trace", stack=40)
    cases.compare("a deep run is checked in a small stack", got, Answer(0, b"", "reports 0\n"))


def main() -> int:
    """Runs all cases, and returns 0 if they passed, 1 if one failed, 2 without a program."""
    if not os.path.isfile(HIPPO) or not os.access(HIPPO, os.X_OK):
        print(f"hostile input: {HIPPO} is not a program (./hippo --build builds it)", file=sys.stderr)
        return 2
    cases = Cases()
    files = [str(TOP / "examples" / "hoisted_copy" / name) for name in ("copy.ll", "copy.trace")]
    program, trace = (Path(file).read_bytes() for file in files)
    whole = answer("repair", *files)
    cases.count("the whole files", [] if whole.code == 0 and is_answer(whole) else [str(whole)])
    cases.count("each prefix of a program", list(cut_program(program, files[1], whole)))
    cases.count("each prefix of a trace", list(cut_trace(trace, files[0], whole)))
    cases.count("each byte of a program as another", list(damaged(program, None, files[1])))
    cases.count("each byte of a trace as another", list(damaged(trace, files[0], None)))
    got = answer("check", b"\xff", b"\xff")
    is_usage = got[:2] == (1, b"") and got.notes.startswith("hippo: usage\n")
    cases.count("words that are not UTF-8", [] if is_usage else [str(got)])
    with tempfile.TemporaryDirectory() as folder:
        cases.count("files that come byte by byte", list(dripped(folder, program, trace, whole)))
        large_programs(cases, folder)
        large_traces(cases, folder, files[0], b"".join(trace.splitlines(True)[:2]))
        deep_run(cases, folder)
        small_stack(cases, folder)
    print(f"hostile input: {cases.passed} cases passed, {cases.failed} failed")
    return 1 if cases.failed else 0


if __name__ == "__main__":
    sys.exit(main())
