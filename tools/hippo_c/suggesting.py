"""The suggestions for all groups: from hippo's repair, compiled by clang, shown, written as a diff, verified."""
import tempfile
from dataclasses import dataclass, replace

from . import running
from .compiling import Compiling
from .diagnostics import Printer, amount
from .edits import Additions
from .fixes import Fixer, Suggestion
from .plan import Repair
from .program import Program
from .reports import Group
from .session import Checked, Session
from .sources import in_place_of, overlay
from .writing import STANDARD_OUTPUT, output_file


@dataclass
class Suggestions:
    """The suggestion for each group that has one, and the edits of all of them together."""

    by_group: list[tuple[Group, Suggestion]]
    additions: Additions

    def of(self, group: Group) -> Suggestion | None:
        """The suggestion for a group."""
        return next((suggestion for one, suggestion in self.by_group if one is group), None)

    @property
    def without_edit(self) -> int:
        """The number of suggestions without an edit."""
        return sum(suggestion.additions is None for _, suggestion in self.by_group)


def repaired_program(session: Session, results: list[Checked], thin: bool = False) -> tuple[str, running.Ended]:
    """The path of the program that hippo repairs for all traces, and hippo's notes."""
    path = session.file("repaired.ll")
    session.progress.say("repairing")
    word = "thin" if thin else "repair" if len(results) == 1 else "many"
    words = [word, session.text_path, *(checked.path for checked in results)]
    return path, running.hippo(words, path)


def read_repair(session: Session, path: str) -> Repair:
    """What the repair added, from the repaired text."""
    with open(path, encoding="latin-1") as file:
        return Repair(session.program, Program(file.read()))


def suggestions_for(session: Session, results: list[Checked]) -> Suggestions:
    """A suggestion for each group of all results."""
    found = Suggestions([], Additions())
    if not any(checked.groups for checked in results):
        return found
    fixer = Fixer(session, read_repair(session, repaired_program(session, results)[0]))
    session.progress.say("looking for the statements")
    for checked in results:
        for group in checked.groups:
            suggestion = fixer.suggest(group)
            if suggestion:
                found.by_group.append((group, suggestion))
    found.additions = Compiling(session, [suggestion for _, suggestion in found.by_group]).kept()
    return found


def print_suggestion(printer: Printer, suggestion: Suggestion | None) -> None:
    """The note of a suggestion."""
    if suggestion is None:
        printer.diagnostic(None, "note", "no suggestion: the repaired program has nothing at this path")
        return
    how = "" if suggestion.additions else f" (by hand: {suggestion.reason})"
    printer.diagnostic(suggestion.place, "note", f"suggestion{how}: {suggestion.text}")


def verify(session: Session, results: list[Checked], found: Suggestions) -> list[Checked]:
    """The checks of the C with all edits, on the same inputs."""
    with tempfile.TemporaryDirectory(prefix="hippo-c-") as folder:
        texts = found.additions.edited()
        request = replace(session.request, clang=[*session.request.clang, *overlay(texts, folder)], folder="")
        with in_place_of(texts), Session(request, session.progress) as again:
            return [
                again.check(checked.numbers, f"again.{number}.trace", coverage=False)
                for number, checked in enumerate(results)
            ]


def print_verified(printer: Printer, after: list[Checked], found: Suggestions) -> bool:
    """Prints what the check of the edited C found; returns whether it is nothing."""
    reports = sum(checked.reports for checked in after)
    ended = all(checked.ended.startswith("stop") for checked in after)
    left = f', {amount(found.without_edit, "suggestion")} left to be made by hand' if found.without_edit else ""
    end = "" if ended else f", and the run ended with {after[0].ended}"
    printer.line(f'with the suggestions applied: {amount(reports, "report")}{left}{end}')
    return reports == 0 and ended


def write_diff(found: Suggestions, path: str, printer: Printer) -> None:
    """Writes the diff into a file, or to standard output if the path is `-`."""
    text = found.additions.diff()
    if path == STANDARD_OUTPUT:
        printer.stream.write(text)
        return
    with output_file(path) as file:
        file.write(text.encode("utf-8", "surrogateescape"))
