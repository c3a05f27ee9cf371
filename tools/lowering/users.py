"""The user's lines from which a program comes to what is refused inside a header of the system: a line there says nothing to the user."""
from __future__ import annotations

import re
from typing import TYPE_CHECKING, NamedTuple

from .names import GLOBAL_NAME, demangled, global_name, without_arguments
from .refusals import Refused

if TYPE_CHECKING:
    from .function import Function
    from .module import Module

SYSTEM = ("/usr/include/", "/usr/lib/", "/usr/local/include/")
# How the place ends of what clang makes for a whole file, such as the end of its global objects.
OF_FILE = ":0: "
NAMED = re.compile(GLOBAL_NAME)
OF_TYPE = re.compile(r"(?:vtable|typeinfo|VTT|typeinfo name) for ")
INTERNAL = re.compile(r"_[_A-Z]")
SHORT = re.compile(r"\bbasic_(?=\w*(?:stream|buf|string|regex|ios)\b)")


class Use(NamedTuple):
    """A line that names a function or a global: in a function, with its place, or in the initial value of a global."""

    user: str
    place: str


class Users:
    """Who names what in a module."""

    def __init__(self, module: Module, globals_: list[str], functions: list[Function]) -> None:
        self.uses: dict[str, list[Use]] = {}
        for line in globals_:
            name = global_name(line)
            for found in set(NAMED.findall(line)):
                self.uses.setdefault(f"@{found}", []).append(Use(name, ""))
        for function in functions:
            for line, metadata in function.lines:
                if "@" in line:
                    use = Use(function.written_name, module.places.of(metadata) or function.head_place)
                    for found in set(NAMED.findall(line)):
                        self.uses.setdefault(f"@{found}", []).append(use)

    def nearest(self, name: str) -> list[tuple[str, str]]:
        """The places outside of the system's headers that come to a function or a global first, each with the name that stands there."""
        found, seen, waiting = [], {name}, [name]
        while waiting:
            named = waiting.pop(0)
            for use in self.uses.get(named, []):
                if use.place and not is_of_system(use.place):
                    found.append((use.place, named))
                elif use.user not in seen:
                    seen.add(use.user)
                    waiting.append(use.user)
        exact = [(place, named) for place, named in found if not place.endswith(OF_FILE)]
        return exact or [(place.removesuffix(OF_FILE) + ": ", named) for place, named in found]


def is_of_system(place: str) -> bool:
    """Whether a place is in a header of the system."""
    return place.startswith(SYSTEM)


def shown(name: str) -> str:
    """A name of the library as a program writes it, without the arguments of templates: a class for its constructors, and with a `~` for
    its destructor."""
    mangled = name[1:].strip('"')
    parts = without_arguments(demangled([mangled]).get(mangled, mangled)).replace("__cxx11::", "").split("::")
    end = ""
    if len(parts) > 1 and parts[-1].lstrip("~") == parts[-2]:
        end = "~" if parts.pop().startswith("~") else ""
    parts[0] = OF_TYPE.sub("", parts[0])
    return end + SHORT.sub("", "::".join(public(parts)))


def public(parts: list[str]) -> list[str]:
    """The parts of a name of the library that a program may write: `std::thread` of `std::thread::_State`, `std::future` of what its base
    has."""
    kept = [part for part in parts if not INTERNAL.match(part)]
    if parts[0] != "std" or len(parts) == len(kept):
        return parts
    if len(kept) > 1:
        return kept
    based = re.fullmatch(r"_+(\w+)_base", parts[1])
    return ["std", based[1]] if based else parts


def refuse_global(module: Module, refusal: Refused, line: str) -> None:
    """Notes a refusal of a global: at its own place, or at the user's lines that come to what clang made for the library."""
    name = global_name(line)
    place = module.place_of_global(name[1:].strip('"'))
    nearest = [] if place else module.users().nearest(name)
    if not nearest:
        module.refusals.add(refusal, place, line[:110])
    for user_place, stands in nearest:
        module.refusals.add_once(refusal, user_place, shown(refusal.missing or stands))


def refuse(module: Module, refusal: Refused, function: Function, metadata: dict[str, str], line: str) -> None:
    """Notes a refusal in a function: at its own place, or at the user's lines that come to it."""
    place = module.places.of(metadata) or function.head_place
    nearest = module.users().nearest(function.written_name) if is_of_system(place) else []
    if refusal.missing and not nearest:
        nearest = [(place, refusal.missing)]
    if not nearest:
        module.refusals.add(refusal, place, f"{line[:110]} (in {function.written_name})")
    for user_place, name in nearest:
        module.refusals.add_once(refusal, user_place, shown(name))
