"""Places in the C source, by the line tables that clang writes."""
import os
import re

from .names import unescaped

METADATA = re.compile(r",? !([-\w.]+) !(\d+)(?=$| \{$|,? !)")
NODE = re.compile(r"^!(\d+) = (?:distinct )?!(DI\w+)\((.*)\)$", re.M)
FIELD = re.compile(r'(\w+): ("[^"]*"|[^",]+)')
# What a place is in: a block or a function, and the call by which its function was inlined.
OUTER = ("scope", "inlinedAt")


class Places:
    """The places of a module's instructions and functions."""

    def __init__(self, text: str) -> None:
        self.nodes: dict[str, dict[str, str]] = {}
        self.names: dict[str, str] = {}
        self.outermost: dict[str, str] = {}
        for number, kind, fields in NODE.findall(text):
            self.nodes[number] = dict(FIELD.findall(fields))
            if kind == "DIFile":
                self.names[number] = self.file_name(number)

    def file_name(self, number: str) -> str:
        """The name of a file as it was given to clang; its whole path if clang removed a folder from its front."""
        name, folder = self.text(number, "filename") or "", self.text(number, "directory")
        return os.path.join(folder, name) if folder and folder != os.getcwd() else name

    @staticmethod
    def without_metadata(line: str) -> tuple[str, dict[str, str]]:
        """A line without the metadata at its end, and that metadata by name."""
        metadata = dict(METADATA.findall(line))
        return METADATA.sub("", line), metadata

    def of(self, metadata: dict[str, str]) -> str:
        """`FILE:LINE: ` of an instruction or a function, or an empty text if that is not known."""
        place = self.outermost_call(metadata.get("dbg") or "")
        line = self.number(place, "line")
        file = self.field(place, "file") or self.field(self.field(place, "scope"), "file")
        return f"{self.names[file]}:{line}: " if line is not None and file in self.names else ""

    def outermost_call(self, place: str) -> str:
        """The place of the call that was not inlined, of a chain of inlined calls."""
        passed = []
        while place not in self.outermost and (called := self.field(place, "inlinedAt")):
            passed.append(place)
            place = called
        found = self.outermost.get(place, place)
        self.outermost.update((one, found) for one in passed)
        return found

    def field(self, number: str | None, name: str) -> str | None:
        """The number of the metadata that a field names."""
        value = self.nodes.get(number or "", {}).get(name, "")
        return value[1:] if value.startswith("!") else None

    def text(self, number: str | None, name: str) -> str | None:
        """The text in a field."""
        value = self.nodes.get(number or "", {}).get(name, "")
        return unescaped(value[1:-1]) if value.startswith('"') else None

    def texts(self, name: str) -> list[str]:
        """The texts in a field of all nodes."""
        return [found for number in self.nodes if (found := self.text(number, name))]

    def number(self, number: str | None, name: str) -> int | None:
        """The number in a field."""
        value = self.nodes.get(number or "", {}).get(name, "")
        return int(value) if value.isdecimal() else None


def has_circle(text: str) -> bool:
    """Whether a place of a module is within itself."""
    places = Places(text)
    waiting = dict.fromkeys(places.nodes, 0)
    for number in places.nodes:
        for outer in inside(places, number):
            waiting[outer] = waiting.get(outer, 0) + 1
    free = [number for number, count in waiting.items() if not count]
    for number in free:  # grows while it is read
        for outer in inside(places, number):
            waiting[outer] -= 1
            if not waiting[outer]:
                free.append(outer)
    return len(free) < len(waiting)


def inside(places: Places, number: str) -> list[str]:
    """What a place is in."""
    return [outer for name in OUTER if (outer := places.field(number, name))]
