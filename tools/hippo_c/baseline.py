"""Known groups: a file with a line for each, so that a build fails only on new ones."""
import os
import re
from dataclasses import dataclass

from .diagnostics import Printer, amount
from .fingerprints import kind_of
from .letters import shown
from .reading import text_of
from .session import Checked, Session
from .trouble import Trouble
from .writing import output_file

FORM = 2
TITLE = f"# Known groups of reports for hippo-c check --baseline, form {FORM}. Made by --write-baseline."
ANY_TITLE = re.compile(r"# Known groups of reports for hippo-c check --baseline, form (\d+)\.")
FIRST_TITLE = "# Groups of reports that are known, for hippo-c check --baseline."
LINE = re.compile(r"([0-9a-f]{64}) .*")
AGAIN = "look at what check shows without it, and make it again by --write-baseline"


@dataclass
class LeftOut:
    """How many groups and reports a baseline knows."""

    groups: int = 0
    reports: int = 0


def read(path: str) -> set[str]:
    """The fingerprints that a baseline lists; an empty file lists none."""
    if not os.path.lexists(path):
        raise Trouble(f"{path}: no such baseline", "make it by --write-baseline")
    lines = text_of(path).splitlines()
    refuse_title(path, lines[0] if lines else TITLE)
    known = set()
    for number, line in enumerate(lines[1:], 2):
        found = LINE.fullmatch(line)
        if line.strip() and not line.startswith("#"):
            if not found:
                raise Trouble(f"{path}:{number}: not a line of a baseline", AGAIN)
            known.add(found[1])
    return known


def refuse_title(path: str, title: str) -> None:
    """Refuses a file that is no baseline, or one of another form."""
    if title == TITLE:
        return
    if title.startswith(FIRST_TITLE):
        raise Trouble(
            f"{path}: a baseline of form 1, which also hides new groups; this hippo-c reads form {FORM}", AGAIN
        )
    if found := ANY_TITLE.match(title):
        raise Trouble(f"{path}: a baseline of form {found[1]}; this hippo-c reads form {FORM}", AGAIN)
    raise Trouble(f"{path}: not a baseline", "make one by --write-baseline")


def write(path: str, session: Session, results: list[Checked]) -> None:
    """Writes the groups of all results, each once, with words that describe it to a reader."""
    lines: dict[str, str] = {}
    for checked in results:
        for group in checked.groups:
            missing, name, text, _ = kind_of(session, checked, group)
            place = session.places.first(group.path)
            lines.setdefault(
                group.fingerprint, shown(f'{missing} {name} in {place.function if place else "?"}: {text}')
            )
    text = "".join(
        f"{line}\n"
        for line in [TITLE, *(f"{mark} {words}" for mark, words in sorted(lines.items(), key=lambda item: item[::-1]))]
    )
    with output_file(path) as file:
        file.write(text.encode("utf-8", "replace"))


def leave_out(results: list[Checked], known: set[str]) -> LeftOut:
    """Removes the known groups from the results, and says how many these are."""
    found = LeftOut()
    for checked in results:
        old = [group for group in checked.groups if group.fingerprint in known]
        checked.groups = [group for group in checked.groups if group.fingerprint not in known]
        checked.left_out = len(old), sum(group.count for group in old)
        found.groups, found.reports = found.groups + checked.left_out[0], found.reports + checked.left_out[1]
    return found


def print_left_out(printer: Printer, path: str, found: LeftOut, results: list[Checked]) -> None:
    """The last line of a check with a baseline."""
    new = sum(len(checked.groups) for checked in results)
    printer.line(
        f'{path}: {amount(found.reports, "report")} in {amount(found.groups, "group")} known and left out; '
        f'{amount(sum(checked.reports for checked in results), "report")} in {amount(new, "group")} new'
    )
