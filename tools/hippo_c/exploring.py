"""The command explore: it searches inputs and crashes by the native engine, and shows what hippo confirms."""
from __future__ import annotations

import argparse
import contextlib
import os
import subprocess
import threading

from . import ends, running, words
from .again import Again
from .checking import printer_of
from .crashed_inputs import CrashedInput, rows_of
from .confirming import Confirmed, Confirming, same_trace
from .explore_answers import print_answer
from .explore_forms import write_forms
from .explore_options import bounds_of, words_of
from .engine_lines import Reader
from .findings import Found
from .native import Engine, accepted
from .pool_starts import PoolFiles
from .progress import Progress
from .reading import text_of
from .request import Request
from .session import Session
from .trouble import Trouble
from .writing import output_file

MOST_CORPUS = 1000
SECONDS_TO_END = 5


def explore(options: argparse.Namespace, request: Request, progress: Progress) -> int:
    """Explores the program: 0 if nothing was confirmed, 1 if something was, 2 if no image was tried, 130 after an interrupt."""
    bounds = bounds_of(options.bounds)
    spelled = words_as_numbers(request)
    given = request.inputs if options.inputs or options.input or options.input_file or not options.merge else []
    seeds = [*given, *corpus_of(options.corpus, must_exist=False)]
    seeds = united([line for path in options.merge for line in corpus_of(path)]) if options.merge else seeds
    printer = printer_of(options)
    with Session(request, progress) as session:
        if spelled and not words.reads_words(session.program):
            raise Trouble("--args: main does not use its parameters")
        check_recovers(session, options.recover)
        progress.say("building the engine")
        engine = Engine(session.program, session.new_folder(), tuple(options.recover))
        for numbers in given:
            check_engine(session, engine, numbers)
        said = [*words_of(options, bounds), *session.limit_words(), "--given", str(len(given))]
        pools = PoolFiles(session, options.pools)
        said += pools.words()
        if options.json or options.html:
            said += ["--behaviours", str(options.behaviours)]
        found, interrupted = run_engine(session, engine, seeds, said, options)
        progress.say("confirming")
        confirmed = Confirming(session, options.status).answer_for(found, given)
        confirmed.interrupted |= interrupted
        if options.corpus:
            write_corpus(options.corpus, given, confirmed, found)
        write_forms(options, session, found, confirmed, printer, Again(options, session, pools))
        progress.wipe()
        if "-" not in (options.json, options.sarif):
            print_answer(printer, session, options, found, confirmed, Again(options, session, pools))
    if confirmed.interrupted:
        return 130
    if confirmed.groups or confirmed.failures or confirmed.outputs or confirmed.after_crashes:
        return 1
    return 0 if found.summary.get("images") or not options.crashes else 2


def words_as_numbers(request: Request) -> bool:
    """Puts the words of `--args` before the numbers of each input, so that the search changes them too; whether there are such words."""
    if not request.arguments:
        return False
    first = words.encoded(request.arguments[1:])
    request.inputs = [[*first, *numbers] for numbers in request.inputs]
    request.lower.append(words.FROM_INPUT)
    request.arguments = []
    return True


def corpus_of(path: str | None, must_exist: bool = True) -> list[list[int]]:
    """The inputs of a corpus, one in each line."""
    if path is None:
        return []
    if not os.path.lexists(path):
        if must_exist:
            raise Trouble(f"{path}: no such corpus") from None
        return []
    return [row.numbers for row in rows_of(text_of(path), path) if not row.crashes]


def united(lines: list[list[int]]) -> list[list[int]]:
    """Inputs without repetition, in an order that does not depend on theirs."""
    return sorted({tuple(numbers): numbers for numbers in lines}.values(), key=lambda numbers: (len(numbers), numbers))


def check_recovers(session: Session, names: list[str]) -> None:
    """Refuses a function of `--recover` that the lowered text does not have."""
    for name in names:
        if name not in session.program.functions:
            raise Trouble(
                f"--recover {name}: the lowered text has no such function",
                "clang may have inlined it: put __attribute__((noinline)) before it",
            )


def check_engine(session: Session, engine: Engine, numbers: list[int]) -> None:
    """The first act: the trace of a given input equals that of `hippo record`, and the run ends."""
    path, ended = session.record(numbers, "given.trace")
    own = session.file("native.trace")
    own_ended = engine.record(numbers, own, *session.limit_words())
    if own_ended.notes.strip() == "full":
        raise Trouble(
            "the run of the given input has more entries, stores or prints than explore holds",
            "docs/EXPLORE.md has the limits",
        )
    if own_ended.how != ended.how or not same_trace(path, own):
        raise Trouble("a defect of explore: the trace of the engine is not that of hippo")
    if not ended.how.startswith("stop"):
        raise Trouble(
            f'the run of the given input ends with "{ended.how}"',
            f'hippo-c run shows why, with --input {" ".join(map(str, numbers))}',
        )


def run_engine(
    session: Session, engine: Engine, seeds: list[list[int]], said: list[str], options: argparse.Namespace
) -> tuple[Found, bool]:
    """What all jobs found, and whether they were interrupted. The answer does not depend on which job ends first."""
    given = os.path.join(engine.folder, "seeds.in")
    with open(given, "w", encoding="ascii") as file:
        file.writelines(" ".join(map(str, numbers)) + "\n" for numbers in seeds)
    command = "replay" if options.command == "crash" or options.merge else "explore"
    shown = ["--progress", "1"] if session.progress.shown else []
    jobs = [
        Job(
            [engine.path, command, "--input", given, *said, *shown, "--seed", str(options.seed + number)],
            session.progress,
            len(session.program.blocks),
            0 if options.runs else options.time or 60,
        )
        for number in range(options.jobs if command == "explore" else 1)
    ]
    interrupted = False
    ends.state.searches = True
    try:
        for job in jobs:
            job.is_read.wait()
    except ends.Signalled:
        interrupted = True
        for job in jobs:
            job.ask_to_end()
    finally:
        ends.state.searches = False
        for job in jobs:
            job.stop()
    reader = Reader(engine.sites)
    for job in jobs:
        if not interrupted:
            accepted(job.ended())
        for line in job.lines:
            reader.take(line)
    return reader.found, interrupted


class Job:
    """A process of the engine; a thread reads its lines."""

    def __init__(self, command: list[str], progress: Progress, blocks: int, seconds: float) -> None:
        self.lines: list[str] = []
        self.blocks, self.seconds = blocks, seconds
        self.progress = progress
        self.process = running.start(command, stdout=subprocess.PIPE)
        self.is_read = threading.Event()
        threading.Thread(target=self.read, daemon=True).start()

    def read(self) -> None:
        """Takes in the lines; a line that an interrupt cut off is left out."""
        for line in running.output_of(self.process):
            text = line.decode("ascii", "replace")
            if text.startswith("progress ") and text.endswith("\n"):
                self.progress.show(progress_text(text, self.blocks, self.seconds))
            elif text.endswith("\n"):
                self.lines.append(text[:-1])
        self.is_read.set()

    def ended(self) -> running.Ended:
        """How the process ended."""
        notes = self.process.stderr.read() if self.process.stderr and not self.process.stderr.closed else b""
        code = self.process.wait()
        ends.state.processes.discard(self.process)
        return running.Ended(code, notes.decode("utf-8", "replace"))

    def ask_to_end(self) -> None:
        """Lets the process write its summary and end, if that does not take long."""
        with contextlib.suppress(OSError):
            self.process.terminate()
        self.is_read.wait(SECONDS_TO_END)

    def stop(self) -> None:
        """Ends the process if it still runs."""
        if not self.is_read.is_set():
            ends.end(self.process)
            self.is_read.wait()


def progress_text(line: str, blocks: int, seconds: float) -> str:
    """A line of progress in words; what is left is a time, or a part of the runs."""
    fields = dict(part.split("=") for part in line.split()[1:])
    left = f'{int(fields["left"]) * seconds / 100:.0f} s' if seconds else f'{fields["left"]} %'
    return (
        f'exploring: {int(fields["inputs"]):,} inputs, {fields["kept"]} kept, {fields["blocks"]} of {blocks:,} blocks, {fields["reports"]} reports, '
        f'{fields["failures"]} failures, {int(fields["points"]):,} crash points, {left} left'
    )


def write_corpus(path: str, given: list[list[int]], confirmed: Confirmed, found: Found) -> None:
    """Writes the inputs that show something, then those that ran something new, each once."""
    showing = [shown.checked.numbers for shown in confirmed.groups] + [
        shown.failure.numbers for shown in confirmed.failures
    ]
    crashed = [
        CrashedInput(report.numbers, crashes)
        for report, crashes in confirmed.after_crashes
        if not (report.told or report.limit)
    ]
    showing += [one.numbers for one in crashed]
    lines = {tuple(numbers): None for numbers in [*united(showing), *given, *united(found.kept)]}
    texts = [" ".join(map(str, numbers)) for numbers in list(lines)[:MOST_CORPUS]]
    text = "".join(f"{line}\n" for line in [*texts, *(one.line() for one in crashed)])
    with output_file(path) as file:
        file.write(text.encode("ascii"))
