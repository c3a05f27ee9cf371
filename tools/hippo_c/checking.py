"""The commands check and run."""
import argparse
import json
import os
import re
import sys

from . import baseline, depfile, fingerprints, flush_notes, running, watching
from .answer import answer_of
from .coverage import print_missed, united
from .diagnostics import Printer, amount, print_checked, print_left_out, print_trap
from .history import histories_of
from .numbers import DEFAULT_TURNS, from_to
from .page import page_of
from .progress import Progress
from .sarif import sarif_of
from .request import Request
from .session import Checked, Session
from .suggesting import Suggestions, print_suggestion, print_verified, suggestions_for, verify, write_diff
from .together import print_together
from .traps import find_trap
from .trouble import Trouble
from .unsupported import output_note
from .writing import STANDARD_OUTPUT, output_file


def add_options(command: argparse.ArgumentParser) -> None:
    """The options of check that other commands do not have."""
    command.add_argument("--inputs", metavar="FILE", help="a file with an input in each line; each is checked")
    command.add_argument(
        "--groups", type=from_to(0), default=50, metavar="N", help="show at most N groups, 0 for all (50)"
    )
    command.add_argument("--fix", action="store_true", help="suggest for each group what to add to the C")
    command.add_argument(
        "--diff", metavar="FILE", help="write the suggestions as a unified diff, - for standard output"
    )
    command.add_argument("--verify-fix", action="store_true", help="check the C again with the suggestions applied")
    command.add_argument("--apply", action="store_true", help="edit the C files by the suggestions")
    command.add_argument("--flush-with", metavar="FUNCTION", help="suggest this function of yours for flushes")
    command.add_argument("--fence-with", metavar="FUNCTION", help="suggest this function or macro of yours for fences")
    command.add_argument("--json", metavar="FILE", help="write the answer as JSON, - for standard output")
    command.add_argument("--sarif", metavar="FILE", help="write the answer as SARIF 2.1.0")
    command.add_argument("--html", metavar="FILE", help="write the answer as a page for a browser")
    command.add_argument("--baseline", metavar="FILE", help="leave out the groups that this file lists")
    command.add_argument("--write-baseline", metavar="FILE", help="list the groups of this check in a file")
    command.add_argument(
        "--declared",
        action="store_true",
        help="show the reports that the program leaves out: bytes declared volatile to pmemcheck, and suppressions",
    )
    command.add_argument("--no-coverage", action="store_true", help="do not count the lines of C that ran")
    command.add_argument("--uncovered", action="store_true", help="list the lines of C that no input ran")
    depfile.add_option(command)
    watching.add_option(command)


def printer_of(options: argparse.Namespace) -> Printer:
    """The printer of diagnostics on standard output, in colours if the options or the terminal want them."""
    colour = options.color == "always" or (
        options.color == "auto"
        and sys.stdout.isatty()
        and os.environ.get("TERM") != "dumb"
        and "NO_COLOR" not in os.environ
    )
    return Printer(sys.stdout, colour, not options.no_source, options.quiet)


def check(options: argparse.Namespace, request: Request, progress: Progress) -> int:
    """Checks the program on each input: 0 if nothing was found, 1 if something was, 2 if a run did not end."""
    printer = printer_of(options)
    refuse_words(options)
    known = baseline.read(options.baseline) if options.baseline else set()
    request.wants_declared = request.heeds_suppressions = True
    request.flush_with, request.fence_with = options.flush_with or "", options.fence_with or ""
    with Session(request, progress) as session:
        depfile.write_depfile(options, session)
        results = []
        for number, numbers in enumerate(request.inputs, 1):
            name = f"program.{number}.trace" if len(request.inputs) > 1 else "program.trace"
            results.append(session.check(numbers, name, not options.no_coverage))
        if session.suppressions:
            session.suppressions.settle(results)
        flush_notes.give(session, results)
        wants_fix = options.fix or options.diff or options.verify_fix or options.html or options.sarif or options.apply
        if options.baseline or options.write_baseline or options.json or options.sarif or options.html:
            fingerprints.give(session, results)
        if options.write_baseline:
            baseline.write(options.write_baseline, session, results)
        left_out = baseline.leave_out(results, known)
        found = suggestions_for(session, results) if wants_fix else None
        write_forms(options, session, results, found, printer)
        progress.wipe()
        if "-" not in (options.diff, options.json, options.sarif):
            print_all(printer, session, results, options, found)
        if found:
            use_edits(options, session, results, found, printer)
        if options.baseline and "-" not in (options.diff, options.json, options.sarif):
            baseline.print_left_out(printer, options.baseline, left_out, results)
    return code_of(results)


def refuse_words(options: argparse.Namespace) -> None:
    """Refuses words that do not fit together."""
    if options.expand_macros and (options.diff or options.verify_fix or options.apply):
        raise Trouble("--diff, --verify-fix and --apply edit the files as they are: leave out --expand-macros")
    if options.uncovered and options.no_coverage:
        raise Trouble("--uncovered lists lines that did not run: leave out --no-coverage")
    for name in (options.flush_with, options.fence_with):
        if name is not None and not re.fullmatch(r"[A-Za-z_]\w*", name, re.ASCII):
            raise Trouble(f"--flush-with and --fence-with take the name of a function, not '{name}'")
    depfile.check_word(options)


def use_edits(
    options: argparse.Namespace, session: Session, results: list[Checked], found: Suggestions, printer: Printer
) -> None:
    """Writes the edits of the suggestions as a diff, checks the program with them, or makes them."""
    if options.diff:
        write_diff(found, options.diff, printer)
    if options.verify_fix:
        after = verify(session, results, found)
        session.progress.wipe()
        print_verified(printer, after, found)
    if options.apply:
        printer.line(f'edited: {amount(found.additions.apply(), "file")}')


def write_forms(
    options: argparse.Namespace, session: Session, results: list[Checked], found: Suggestions | None, printer: Printer
) -> None:
    """Writes the answer in the requested forms."""
    if not (options.json or options.sarif or options.html):
        return
    answer = answer_of(session, results, found)
    if options.json:
        write_text(options.json, json.dumps(answer, indent=2) + "\n", printer)
    if options.sarif:
        write_text(options.sarif, json.dumps(sarif_of(answer), indent=2) + "\n", printer)
    if options.html:
        write_text(
            options.html,
            page_of(answer, histories_of(session, results), diff=found.additions.diff() if found else ""),
            printer,
        )


def write_text(path: str, text: str, printer: Printer) -> None:
    """Writes a text into a file, or to standard output if the path is `-`."""
    if path == STANDARD_OUTPUT:
        printer.stream.write(text)
        return
    with output_file(path) as file:
        file.write(text.encode("utf-8", "replace"))


def print_all(
    printer: Printer, session: Session, results: list[Checked], options: argparse.Namespace, found: Suggestions | None
) -> None:
    """Prints what is wrong with suppressions, the lines that did not run on demand, and the results of all inputs."""
    for place, what in session.suppressions.said if session.suppressions else ():
        printer.diagnostic(place, "warning", what, True)
    if options.uncovered:
        print_missed(printer, united(checked.coverage for checked in results))
    wants_notes = options.fix or options.verify_fix or options.apply
    for number, checked in enumerate(results, 1):
        if len(results) > 1:
            printer.line(f'input {number}: {" ".join(map(str, checked.numbers))}'.rstrip())
        notes = (lambda group: print_suggestion(printer, found.of(group))) if found and wants_notes else None
        if options.declared:
            print_left_out(printer, session, checked)
        print_checked(printer, session, checked, options.groups, notes)
    if len(results) > 1:
        print_together(printer, session, results)
    if note := output_note(session):
        printer.diagnostic(None, "note", note)


def code_of(results: list[Checked]) -> int:
    """1 if a run has a report, otherwise 2 if a run did not return from main, otherwise 0."""
    if any(checked.groups for checked in results):
        return 1
    return 0 if all(checked.ended.startswith("stop") for checked in results) else 2


def how_it_ended(ended: running.Ended, request: Request) -> str:
    """How a run ended that did not trap."""
    if ended.how == "cut":
        return f"the run was cut after {DEFAULT_TURNS if request.limit is None else request.limit:,} turns; --limit N gives it more"
    return f'main returned {ended.word("stop")}'


def run(options: argparse.Namespace, request: Request, progress: Progress) -> int:
    """Runs the program, and shows what it prints and where it traps."""
    colour = printer_of(options).colour and sys.stderr.isatty()
    printer = Printer(sys.stderr, colour, not options.no_source, options.quiet)
    with Session(request, progress) as session:
        progress.wipe()
        limit = ["--limit", str(request.limit)] if request.limit is not None else []
        numbers = request.inputs[0]
        words = ["run", session.text_path, *limit, "--", *map(str, numbers)]
        process = running.start([running.hippo_program(), *words], stdout=None)
        ended = running.accept(words, running.finish(process), (0, running.TRAPPED, running.CUT))
        if kind := ended.word("trap"):
            trap = find_trap(session.program, numbers, kind)
            print_trap(printer, session, ended.how, trap)
        else:
            printer.line(how_it_ended(ended, request))
    return 0 if ended.code == 0 else 2
