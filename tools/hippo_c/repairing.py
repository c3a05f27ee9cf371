"""The command repair: a repaired program as text or as an object file, and what was added, by C lines."""
from __future__ import annotations

import argparse
import os
from collections.abc import Sequence

from lowering.names import shortened

from . import depfile, running
from .checking import printer_of
from .clones import counted, print_clones, why_many
from .crashed_inputs import check_crashed
from .debuginfo import plain, with_debug_info
from .diagnostics import Printer, amount
from .native import Engine
from .partial import Part, part_for
from .places import Place
from .plan import Repair
from .program import Site
from .progress import Progress
from .request import Request
from .session import Checked, Session
from .suggesting import read_repair, repaired_program
from .traces import Trace, read_trace
from .trouble import Trouble
from .writing import output_file

COUNTS = {"flushes": "flush", "fences": "fence", "hoists": "hoisted call", "clones": "clone", "spared": "spared"}
MANY = {"hoists": "hoisted calls"}
# From how many times as many flushes on a repair says that a flush of a range would do.
MANY_FLUSHES = 8
LLC = [
    "llc-19",
    "--trap-unreachable",
    "-mtriple=x86_64-pc-linux-gnu",
    "-relocation-model=pic",
    "-mattr=+clwb,+clflushopt",
    "-filetype=obj",
]


def add_options(command: argparse.ArgumentParser) -> None:
    """The options of repair that other commands do not have."""
    command.add_argument("-o", dest="out", required=True, metavar="OUT", help="the repaired program, .ll or .o")
    command.add_argument("--inputs", metavar="FILE", help="a file with an input in each line; one repair serves all")
    command.add_argument(
        "--thin", action="store_true", help="leave out the flushes of stores in clones that are never persistent"
    )
    command.add_argument(
        "--for",
        dest="parts",
        action="append",
        metavar="PART.c",
        help="write the functions of this file only; may be given again",
    )
    command.add_argument("-g", dest="debug", action="store_true", help="put debug information into a .ll file too")
    command.add_argument("--clflush", action="store_true", help="flush by CLFLUSH, for processors without CLWB")
    depfile.add_option(command)


def repair(options: argparse.Namespace, request: Request, progress: Progress) -> int:
    """Writes the repaired program: 0, or 1 if a report is left, which hippo's proof excludes."""
    check_words(options, request)
    printer = printer_of(options)
    with Session(request, progress) as session:
        depfile.write_depfile(options, session)
        results = [
            session.check(numbers, f"program.{number}.trace", coverage=False)
            for number, numbers in enumerate(request.inputs, 1)
        ]
        results += [
            check_crashed(session, given, f"crashed.{number}.trace") for number, given in enumerate(request.crashed, 1)
        ]
        path, ended = repaired_program(session, results, options.thin)
        found = read_repair(session, path)
        again = engine_of(session, found) if request.crashed else None
        after = [
            trace_after(session, path, checked, number, options.thin or len(results) > 1, again)
            for number, checked in enumerate(results, 1)
        ]
        write(options, session, found)
        progress.wipe()
        print_repair(printer, session, found, callers_of(session, results))
        print_counts(printer, results, ended, after)
        printer.line(f"written: {options.out}")
    return 1 if any(reports for reports, _ in after) else 0


def check_words(options: argparse.Namespace, request: Request) -> None:
    """Refuses options that do not fit together."""
    if not options.out.endswith((".ll", ".o")):
        raise Trouble(f"{options.out}: not a name that ends in .ll or .o")
    depfile.check_word(options)
    if options.thin and len(request.inputs) + len(request.crashed) > 1:
        raise Trouble("--thin serves one input; --inputs has several")


def engine_of(session: Session, found: Repair) -> Engine:
    """The engine of the repaired program, which runs it from what a power cut leaves."""
    session.progress.say("building the engine")
    folder = session.file("repaired")
    os.makedirs(folder, exist_ok=True)
    return Engine(found.repaired, folder)


def trace_after(
    session: Session, path: str, checked: Checked, number: int, by_record: bool, engine: Engine | None
) -> tuple[int, Trace]:
    """The reports that are left on an input, and the trace of the repaired program."""
    trace_path = session.file(f"repaired.{number}.trace")
    session.progress.say("running the repaired program")
    codes = (0, running.TRAPPED, running.CUT)
    if checked.is_crashed and engine:
        engine.record(checked.numbers, trace_path, "--image", checked.path, *session.limit_words())
        left = sum(1 for _ in running.lines_of(["check", path, trace_path]))
    elif by_record:
        running.hippo(["record", path, *session.limit_words(), "--", *map(str, checked.numbers)], trace_path, codes)
        left = sum(1 for _ in running.lines_of(["check", path, trace_path]))
    else:
        left = int(running.hippo(["rerun", session.text_path, checked.path], trace_path).word("after") or 0)
    return left, read_trace(trace_path, session.program)


def write(options: argparse.Namespace, session: Session, found: Repair) -> None:
    """Writes the repaired program, or the part of it, as text or as an object file, without the checks at boundaries."""
    if session.boundary_checks:
        found.leave_out(session.boundary_checks)
    repaired = found.repaired
    whole = Part(repaired.head, [(function, function.head) for function in repaired.functions.values()])
    part = part_for(session, found, options.parts) if options.parts else whole
    debug = options.debug or options.out.endswith(".o")
    text = with_debug_info(found, part.head, part.functions) if debug or options.parts else plain(repaired)
    if options.clflush:
        text = text.replace("@llvm.x86.clwb(", "@llvm.x86.sse2.clflush(")
    content = text.encode("latin-1") if options.out.endswith(".ll") else assembled(text)
    with output_file(options.out) as file:
        file.write(content)


def assembled(text: str) -> bytes:
    """The object file of a text."""
    ran = running.tool([*LLC, "-o", "-", "-"], text.encode("latin-1"))
    if ran.returncode:
        raise Trouble(f'llc-19: {ran.stderr.decode("utf-8", "replace").strip()}')
    return ran.stdout


def callers_of(session: Session, results: list[Checked]) -> dict[Site, Place]:
    """The user's places from which reports came to sites that are not in the user's code."""
    found: dict[Site, Place] = {}
    paths: list[Sequence[Site]] = [
        path for checked in results for group in checked.groups for path in (group.path, *group.more)
    ]
    for path in paths:
        for level, site in enumerate(path):
            if site not in found and (place := session.places.first(path[level:])):
                found[site] = place
    return found


def print_repair(printer: Printer, session: Session, found: Repair, callers: dict[Site, Place]) -> None:
    """What was added, by C lines: in functions themselves, and the calls that go to clones."""
    rows: dict[str, tuple[Place | None, str]] = {}
    for item in found.insertions:
        if not item.clone and item.site not in found.hoists:
            place = session.places.first((item.site,)) or callers.get(item.site)
            what = "a fence" if item.is_fence else "a flush"
            kind = "flush" if session.program.at(item.site).callee else "store"
            rows[f"{item.site}{what}"] = (place, f"{what} is added after this {kind}{of_helper(session, item.site)}")
    for site, clone in found.hoists.items():
        rows[f"{site}"] = (
            session.places.first((site,)) or callers.get(site),
            f"{hoisted(session, site, found.clones[clone])} goes to a clone that "
            f"flushes what it stores, and a fence is added after it{why_many(found, site)}",
        )
    for place, text in sorted(rows.values(), key=lambda row: (row[0] is None, row[0] or ())):
        printer.diagnostic(place, "note", text)
    print_clones(printer, found)


def hoisted(session: Session, site: Site, original: str) -> str:
    """The call at a site, which goes to a clone of a function: in C it may be a call by pointer."""
    function = session.program.functions[original]
    if function.is_dispatch:
        return "this call by pointer"
    by_pointer = " by pointer" if session.program.functions[site[0]].is_dispatch else ""
    return f"the call of '{shortened(function.name_in_c)}'{by_pointer}"


def of_helper(session: Session, site: Site) -> str:
    """` of 'memcpy'` for a site in a function that is not the user's."""
    return "" if session.places.of(site) else f" of '{shortened(session.program.functions[site[0]].name_in_c)}'"


def print_counts(
    printer: Printer, results: list[Checked], ended: running.Ended, after: list[tuple[int, Trace]]
) -> None:
    """hippo's own counts, and the flushes and fences that ran before and after."""
    counts = ", ".join(
        counted(int(ended.word(word)), one, MANY.get(word, word)) for word, one in COUNTS.items() if ended.word(word)
    )
    printer.line(f"added: {counts}")
    for number, (checked, (left, trace)) in enumerate(zip(results, after), 1):
        which = f"input {number}: " if len(results) > 1 else ""
        printer.line(
            f'{which}{amount(checked.reports, "report")} before, {left} after; '
            f'in this run {counted(checked.trace.flushes, "flush", "flushes")} before, {trace.flushes:,} after; '
            f'{counted(checked.trace.fences, "fence", "fences")} before, {trace.fences:,} after'
        )
        if trace.flushes > MANY_FLUSHES * (checked.trace.flushes + MANY_FLUSHES):
            printer.diagnostic(
                None,
                "note",
                f"{which}the repaired run flushes {trace.flushes // max(checked.trace.flushes, 1):,} times as often; "
                "where a loop stores to one object, a flush of the object after the loop does the same",
            )
