"""Other bytes of the files of pools: where the search may change them, and files that have them."""
from __future__ import annotations

import os

from .program import REGION_BASE
from .session import Session
from .trouble import Trouble
from .writing import whole_file

# Changed bytes of the region before a run: their offsets and values.
Start = tuple[tuple[int, int], ...]
OPTION = "--pool="


class PoolFiles:
    """The files that `--pool NAME=SIZE,FILE` gives, in the region. Changed copies go into a folder."""

    def __init__(self, session: Session, folder: str | None) -> None:
        self.lower, self.folder = session.request.lower, folder
        self.written: dict[Start, list[str]] = {}
        self.files: dict[int, tuple[int, int]] = {}
        offsets = {item.name: item.address - REGION_BASE for item in session.program.persistent}
        for pool, number in enumerate(number for number, word in enumerate(self.lower) if word.startswith(OPTION)):
            offset, path = offsets.get(f"hippo.hippo_pool_{pool}"), self.lower[number].partition(",")[2]
            if offset is not None and path and os.path.getsize(path):
                self.files[number] = (offset, os.path.getsize(path))

    def words(self) -> list[str]:
        """The words that tell the engine where the bytes of files lie."""
        return ["--files", ",".join(f"{offset}:{size}" for offset, size in self.files.values())] if self.files else []

    def lower_for(self, start: Start) -> list[str] | None:
        """The words for tools/lower with files that have these bytes; nothing if there is no folder for them."""
        if not start:
            return self.lower
        if self.folder is None:
            return None
        if start not in self.written:
            self.written[start] = [self.changed(number, word, start) for number, word in enumerate(self.lower)]
        return self.written[start]

    def changed(self, number: int, word: str, start: Start) -> str:
        """The word of a pool with a file that has these bytes, or the same word."""
        offset, size = self.files.get(number, (0, 0))
        own = {at - offset: byte for at, byte in start if offset <= at < offset + size}
        if not own or self.folder is None:
            return word
        first, _, path = word.partition(",")
        with open(path, "rb") as file:
            content = bytearray(file.read())
        for at, byte in own.items():
            content[at] = byte
        name = os.path.join(self.folder, f"{len(self.written) + 1}.{os.path.basename(path)}")
        try:
            os.makedirs(self.folder, exist_ok=True)
        except OSError as error:
            raise Trouble(f"--pools {self.folder}: {error.strerror}") from None
        with whole_file(name) as file:
            file.write(content)
        return f"{first},{name}"


def start_of(text: str) -> Start:
    """Changed bytes as OFFSET:BYTE,.."""
    return tuple((int(at), int(byte)) for at, byte in (part.split(":") for part in text.split(",") if part))
