"""Paths of sites: a store and the calls outwards. Paths with the same calls share them, so that deep recursion takes little memory."""
from __future__ import annotations

from collections.abc import Iterator, Sequence
from typing import overload

from .program import Site, parse_site


class Path(Sequence[Site]):
    """A site and the path from the call around it outwards. Equal paths of one `Paths` are one object."""

    __slots__ = ("site", "outer", "length")

    def __init__(self, site: Site, outer: Path | None) -> None:
        self.site, self.outer = site, outer
        self.length: int = 1 + (outer.length if outer else 0)

    def __len__(self) -> int:
        return self.length

    def __iter__(self) -> Iterator[Site]:
        path: Path | None = self
        while path is not None:
            yield path.site
            path = path.outer

    @overload
    def __getitem__(self, which: int) -> Site:
        ...

    @overload
    def __getitem__(self, which: slice) -> Sequence[Site]:
        ...

    def __getitem__(self, which: int | slice) -> Site | Sequence[Site]:
        """A site by its number, or the path from a number on; any other part is a tuple."""
        if isinstance(which, int):
            path = self.outwards(which if which >= 0 else self.length + which)
            if path is None:
                raise IndexError(which)
            return path.site
        if which.stop is None and which.step is None and (which.start or 0) >= 0:
            return self.outwards(which.start or 0) or ()
        return tuple(self)[which]

    def outwards(self, steps: int) -> Path | None:
        """The path that begins some steps outwards."""
        path: Path | None = self
        while steps > 0 and path is not None:
            path, steps = path.outer, steps - 1
        return path if steps == 0 else None


class Paths:
    """Reads paths, each from the text of its sites with a blank between them."""

    def __init__(self) -> None:
        self.known: dict[tuple[Site, int], Path] = {}
        self.sites: dict[str, Site] = {}
        self.text, self.path = "", Path(("", "", 0), None)

    def read(self, text: str) -> Path:
        """The path of a text. What it has in common with the last text from the outermost call on is not read again."""
        words, outer = text, None
        store, _, calls = self.text.partition(" ")
        if calls and (text.endswith(f" {calls}") or text == calls):
            words, outer = text[: -len(calls)].rstrip(" "), self.path.outer
        else:
            first, _, others = text.partition(" ")
            if others and calls.endswith(f" {others}"):
                words, outer = first, self.path.outwards(1 + calls.count(" ", 0, len(calls) - len(others)))
        path = outer
        for word in reversed(words.split(" ")) if words else ():
            path = self.joined(self.site(word), path)
        assert path is not None
        self.text, self.path = text, path
        return path

    def site(self, word: str) -> Site:
        """The site of a word, the same object for each."""
        if word not in self.sites:
            self.sites[word] = parse_site(word)
        return self.sites[word]

    def joined(self, site: Site, outer: Path | None) -> Path:
        """A site before a path."""
        key = (site, id(outer))
        if key not in self.known:
            self.known[key] = Path(site, outer)
        return self.known[key]
