"""The command crash: it runs the program from what a power cut may leave, at many places of its trace."""
import argparse
import os
import re
import subprocess
import time
from collections import Counter
from collections.abc import Callable, Iterable, Iterator
from concurrent.futures import FIRST_COMPLETED, Future, ThreadPoolExecutor, wait
from dataclasses import dataclass, field

from . import crash_page, debugging, images, running
from .checking import printer_of
from .crash_answers import image_of, print_crashes
from .crash_verdicts import try_images
from .explore_options import add_recovery
from .following import PAST_INPUT, follow
from .images import Choice, Point
from .numbers import from_to, seconds
from .progress import Progress
from .request import Request
from .session import Session
from .traces import pieces
from .trouble import Trouble

# Whether the ending of a run from an image is a failure.
Fails = Callable[[str], bool]


@dataclass
class Outcome:
    """A point that was tried: `ended` is `stop C`, `trap K` or `cut`."""

    point: Point
    ended: str


@dataclass
class Exploration:
    """The points that were tried, counted by their entries, and the outcomes of those that fail; the number of the entries of which each image
    was tried, and of all."""

    tried: Counter[int] = field(default_factory=Counter)
    failing: list[Outcome] = field(default_factory=list)
    whole: bool = True
    entries: int = 0
    all_entries: int = 0

    @property
    def count(self) -> int:
        """The number of points that were tried."""
        return sum(self.tried.values())


def add_options(command: argparse.ArgumentParser) -> None:
    """The options of crash that other commands do not have."""
    add_images(command)
    add_recoveries(command)
    add_next_cuts(command)
    debugging.add_options(command)
    crash_page.add_option(command)


def add_images(command: argparse.ArgumentParser) -> None:
    """The options that choose images."""
    command.add_argument("--entries", metavar="A-B", help="the entries of the trace after which the power is cut")
    command.add_argument(
        "--sample",
        type=from_to(0),
        metavar="N",
        help="try N random images for each entry, by hippo alone, in place of all images",
    )
    command.add_argument("--images", type=from_to(1), metavar="N", help="try N images, chosen at random from all")
    command.add_argument("--seed", type=int, default=1, metavar="N", help="the seed of these images (1)")
    command.add_argument("--time", type=seconds, metavar="SECONDS", help="stop after this time")
    command.add_argument(
        "-j",
        "--jobs",
        type=from_to(1),
        default=os.cpu_count(),
        metavar="N",
        help="the number of parallel runs (one for each processor)",
    )
    command.add_argument(
        "--pick",
        dest="picks",
        nargs="*",
        metavar="LINE:UPTO",
        help="try only this image, after the one entry of --entries",
    )


def add_recoveries(command: argparse.ArgumentParser) -> None:
    """The options of the runs from images."""
    command.add_argument(
        "--status",
        action="store_true",
        help="an image also fails if main returns another number than in the recorded run",
    )
    add_recovery(command)
    command.add_argument(
        "--crashes", type=from_to(1, 4), default=2, metavar="N", help="power cuts one after another that are tried (2)"
    )
    command.add_argument(
        "--runs",
        type=from_to(1),
        metavar="N",
        help="stop after N runs in place of a time, so that equal words give equal answers",
    )


def add_next_cuts(command: argparse.ArgumentParser) -> None:
    """The options of one run: the power cuts after the first one, and what hippo_prints returns."""
    command.add_argument(
        "--then",
        nargs="+",
        action="append",
        default=[],
        metavar="WORD",
        help="another power cut, in the run after that of --pick: ENTRY LINE:UPTO...; may be given again",
    )
    command.add_argument(
        "--prints",
        type=from_to(0, 1 << 62),
        default=0,
        metavar="N",
        help="what hippo_prints returns after the power cut (0)",
    )


def crash(options: argparse.Namespace, request: Request, progress: Progress) -> int:
    """Tries the images: 0 if no run fails, 1 if one does."""
    if len(request.inputs) > 1:
        raise Trouble("crash takes one input")
    debugging.prepare(options)
    request.heeds_suppressions = bool(options.html)
    printer = printer_of(options)
    with Session(request, progress) as session:
        path, ended = session.record(request.inputs[0], "program.trace")
        recorded = ended.how
        if recorded == "cut":
            raise Trouble("the run was cut", "give it more turns by --limit")
        first, last = entries_of(options.entries)
        if options.then or options.prints:
            if options.picks is None or first != last:
                raise Trouble("--then and --prints need one entry and --pick: --entries N --pick LINE:UPTO..")
            return follow(options, session, printer, path, recorded, first)
        chosen = (options.sample, options.images, options.picks, options.entries)
        if chosen == (None,) * 4 and recorded.startswith("stop"):
            return try_images(options, session, printer)
        crash_page.refuse(options)
        choice, points = points_to_try(options, path, first, last)
        fails = failing_test(recorded, options.status)
        found = explore(session, path, points, fails, options)
        found.all_entries = choice.entries
        if not choice.entries:
            raise Trouble(f"--entries {options.entries}: the trace has entries 1 to {sum(1 for _ in pieces(path))}")
        if not found.tried:
            raise Trouble(f"--time {options.time:g}: the time ended before an image was tried", "give it more time")
        shrunk = [shrink(session, path, outcome, fails) for outcome in smallest_of(found)]
        progress.say("looking for the places")
        print_crashes(printer, session, path, found, shrunk, words_again(options, request))
        if options.debug:
            debugging.write_native(
                options, session, image_of(session, path, single_point(options, first, last)), printer
            )
    return 1 if found.failing else 0


def points_to_try(
    options: argparse.Namespace, path: str, first: int, last: int
) -> tuple[Choice, Iterator[list[Point]]]:
    """What is chosen, and the images of each crash point: the one of --pick, or random ones."""
    if options.atomic:
        raise Trouble("--atomic needs a run that ends, without --sample, --images, --entries and --pick")
    if options.picks is not None:
        return Choice(first, last, 0, 0, entries=1), iter([[single_point(options, first, last)]])
    choice = Choice(first, last, options.seed, 2 if options.sample is None else options.sample, options.images)
    return choice, images.points_of(path, choice, options.time is not None)


def entries_of(text: str | None) -> tuple[int, int]:
    """The first and the last entry of `A-B`, or of one number."""
    found = re.fullmatch(r"([0-9]{1,18})(?:-([0-9]{1,18}))?", text) if text is not None else None
    if text is not None and not found:
        raise Trouble(f"--entries {text}: neither a number nor A-B")
    first, last = (int(found[1]), int(found[2] or found[1])) if found else (1, 1 << 62)
    if first > last:
        raise Trouble(f"--entries {text}: the first entry is above the last")
    return first, last


def single_point(options: argparse.Namespace, first: int, last: int) -> Point:
    """The image that `--pick` names."""
    if first != last:
        raise Trouble("--pick needs one entry: --entries N")
    if strange := [pick for pick in options.picks if not re.fullmatch(r"[0-9]{1,18}:[0-9]{1,18}", pick)]:
        raise Trouble(f"--pick {strange[0]}: not LINE:UPTO")
    pairs = (pick.split(":") for pick in options.picks)
    return Point(first, tuple((int(line), int(upto)) for line, upto in pairs))


def failing_test(recorded: str, status: bool) -> Fails:
    """The test whether a run from an image fails: it traps, it is cut, or, with `--status`, main returns another number. A run that reads past
    its input has left the recovery behind."""
    return lambda ended: ended != PAST_INPUT and (not ended.startswith("stop") or status and ended != recorded)


def try_point(session: Session, path: str, point: Point) -> Outcome:
    """Runs the program from one image."""
    return Outcome(point, try_picks(session, path, point, (0, running.TRAPPED, running.CUT)).how)


def try_picks(session: Session, path: str, point: Point, accepted: tuple[int, ...]) -> running.Ended:
    """Runs the program from an image, with one of the accepted exit codes."""
    picks = [f"{line}:{upto}" for line, upto in point.picks]
    words = ["crash", session.text_path, path, str(point.entry), *picks]
    process = running.start([running.hippo_program(), *words], stdout=subprocess.DEVNULL)
    return running.accept(words, running.finish(process), accepted)


def explore(
    session: Session, path: str, points: Iterator[list[Point]], fails: Fails, options: argparse.Namespace
) -> Exploration:
    """Tries points, several at a time, until no point is left or the time runs out."""
    found, until = Exploration(), time.monotonic() + (options.time or 1e18)
    with ThreadPoolExecutor(options.jobs) as pool:
        running_now: set[Future[Outcome]] = set()
        for of_entry in points:
            for point in of_entry:
                if time.monotonic() > until:
                    found.whole = False
                    break
                running_now.add(pool.submit(try_point, session, path, point))
                if len(running_now) >= 4 * options.jobs:
                    done, running_now = wait(running_now, return_when=FIRST_COMPLETED)
                    take_in(found, done, fails, session.progress)
            if not found.whole:
                break
            found.entries += 1
        take_in(found, wait(running_now)[0], fails, session.progress)
    found.failing.sort(key=lambda outcome: (outcome.point.entry, len(outcome.point.picks), outcome.point.picks))
    return found


def take_in(found: Exploration, done: Iterable[Future[Outcome]], fails: Fails, progress: Progress) -> None:
    """Adds the outcomes of runs that ended."""
    for future in done:
        outcome = future.result()
        found.tried[outcome.point.entry] += 1
        if fails(outcome.ended):
            found.failing.append(outcome)
    if progress.often():
        progress.show(f"trying: {found.count:,} crash images, {len(found.failing):,} fail")


def smallest_of(found: Exploration) -> list[Outcome]:
    """For each entry with failing images the one with the fewest picks."""
    best: dict[int, Outcome] = {}
    for outcome in found.failing:
        best.setdefault(outcome.point.entry, outcome)
    return list(best.values())


def shrink(session: Session, path: str, outcome: Outcome, fails: Fails) -> Outcome:
    """The same failure from an image with fewer stores, until no smaller one fails."""
    if len(outcome.point.picks) < 2:
        return outcome
    for point in images.smaller(outcome.point):
        ended = try_picks(session, path, point, (0, running.TRAPPED, running.CUT, running.NO_PICK))
        if ended.code != running.NO_PICK and fails(ended.how):
            return shrink(session, path, Outcome(point, ended.how), fails)
    return outcome


def words_again(options: argparse.Namespace, request: Request) -> list[str]:
    """The words that run this program again, up to the entry."""
    words = ["hippo-c", "crash", *request.files, *request.lower, *(boundary.given for boundary in request.boundaries)]
    if options.input_file:
        words += ["--input-file", options.input_file]
    elif request.inputs[0]:
        words += ["--input", *map(str, request.inputs[0])]
    return words
