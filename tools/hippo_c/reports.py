"""The reports of `hippo check`, and the groups that they fall into."""
from collections.abc import Callable, Iterable
from dataclasses import dataclass, field

from .paths import Path, Paths
from .program import Site, parse_site

MISSING = {"flush": "missing-flush", "fence": "missing-fence", "both": "missing-flush-and-fence"}


@dataclass
class Group:
    """Reports of one kind, of one store by one path, with the numbers of the first report.

    `more` has the other paths, which differ from `path` only in functions that are not the user's. `fingerprint` identifies the group in
    other runs; only what needs it computes it."""

    kind: str
    flush: Site | None
    path: Path
    count: int
    entry: int
    check: int
    closed: int
    more: list[Path] = field(default_factory=list)
    fingerprint: str = ""

    @property
    def missing(self) -> str:
        """What the store lacks, as reports name it."""
        return MISSING[self.kind]


def grouped(lines: Iterable[str], paths: Paths | None = None) -> list[Group]:
    """The groups of the lines of reports, by their first store."""
    groups: dict[tuple[str, str, Path], Group] = {}
    paths = paths or Paths()
    for line in lines:
        # report KIND entry E check C closed N [flush S] path S S S
        _, kind, _, entry, _, check, _, closed, rest = line.split(" ", 8)
        flush, _, path_text = rest.rpartition("path ")
        path = paths.read(path_text)
        key = (kind, flush, path)
        group = groups.get(key)
        if group is None:
            groups[key] = Group(
                kind, parse_site(flush.split(" ")[1]) if flush else None, path, 1, int(entry), int(check), int(closed)
            )
        else:
            group.count += 1
            if int(entry) < group.entry:
                group.entry, group.check = int(entry), int(check)
    return sorted(groups.values(), key=lambda group: (group.entry, group.check))


def joined(groups: list[Group], is_users: Callable[[Site], bool]) -> list[Group]:
    """Joins the groups that differ only in functions that are not the user's."""
    found: dict[tuple[object, ...], Group] = {}
    for group in groups:
        start = next((level for level, site in enumerate(group.path) if is_users(site)), 0)
        first = found.setdefault((group.kind, group.flush, group.path[start:], start > 0), group)
        if first is not group:
            first.count += group.count
            first.more.append(group.path)
    return list(found.values())
