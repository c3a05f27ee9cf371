"""What identifies a group of reports in another run, of this program or of a changed one."""
import hashlib
import re
from collections.abc import Iterable

from .diagnostics import object_of
from .paths import Path
from .reports import Group
from .session import Checked, Session
from .statements import statement_at

REGISTER = re.compile(r"%[-\w$.]+", re.ASCII)
# What is missing, the object, the statement, and a digest of the functions of the path.
Kind = tuple[str, str, str, str]


def give(session: Session, results: Iterable[Checked]) -> None:
    """Gives each group its fingerprint: a digest of its kind, and its number among the groups of this kind, in the order of their places.

    It does not change if lines move, or if the program stores to other elements of an array. A group of several inputs has one.
    """
    kinds: dict[Kind, dict[tuple[object, ...], list[Group]]] = {}
    for checked in results:
        for group in checked.groups:
            kinds.setdefault(kind_of(session, checked, group), {}).setdefault(identity(session, group), []).append(
                group
            )
    for kind, equal in kinds.items():
        ordered = (
            sorted(equal.values(), key=lambda groups: places_of(session, groups[0]))
            if len(equal) > 1
            else equal.values()
        )
        for number, groups in enumerate(ordered, 1):
            mark = digest(kind, number)
            for group in groups:
                group.fingerprint = mark


def kind_of(session: Session, checked: Checked, group: Group) -> Kind:
    """What a group has in common with others that a reader takes for the same."""
    name = re.sub(r"\[\d+\]", "[]", object_of(session, checked, group)[0])
    place = session.places.first(group.path)
    text = statement_at(place) if place else ""
    return group.missing, name, text or instruction_of(session, group), functions_of(session, group.path)


def functions_of(session: Session, path: Path) -> str:
    """A digest of the functions along a path; that of a path around it is a part of it, and is computed once."""
    known, left = session.digests, []
    rest: Path | None = path
    while rest is not None and rest not in known:
        left.append(rest)
        rest = rest.outer
    mark = known[rest] if rest is not None else ""
    for one in reversed(left):
        names = "\n".join([*(place.function for place in session.places.of(one.site)), mark])
        mark = known[one] = hashlib.sha256(names.encode("utf-8", "surrogateescape")).hexdigest()
    return mark


def instruction_of(session: Session, group: Group) -> str:
    """The instruction of a group without the names of its registers; for a program without lines of C."""
    instruction = session.program.instruction(group.path[0])
    return REGISTER.sub("%", instruction.text) if instruction else ""


def identity(session: Session, group: Group) -> tuple[object, ...]:
    """What makes two groups of several inputs one: the flush, and the path from the innermost function that is the user's."""
    start = next((level for level, site in enumerate(group.path) if session.places.of(site)), 0)
    return group.flush, group.path[start:], start > 0


def places_of(session: Session, group: Group) -> list[tuple[str, int, int]]:
    """The places of a group's path."""
    return [place[:3] for place in session.places.along(group.path)]


def digest(kind: Kind, number: int) -> str:
    """The digest of a kind and a number in it."""
    mark = "\n".join([*kind, str(number)])
    return hashlib.sha256(mark.encode("utf-8", "surrogateescape")).hexdigest()
