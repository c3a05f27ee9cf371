"""Refusals: the parts of a program that cannot be lowered, with advice for each kind."""
import re
from dataclasses import dataclass, field

ADVICE = {
    "form": "",
    "float": "use float or double; other floating-point numbers are only moved",
    "vector": "write the loop over scalars, or with the operations of SSE2 that the page of C lists",
    "width": "use integers up to 128 bits; or a lower level of optimisation if clang made the width",
    "atomic": "use plain accesses; or give --single-thread if one thread runs",
    "thread": "use a plain global; or give --single-thread if one thread runs",
    "fence": "use _mm_sfence or _mm_mfence for persistent memory; or give --single-thread if one thread runs",
    "missing": "add the C file that defines it to the command line",
    "option": "give the named option if its assumption holds for the program",
    "section": "write PERSISTENT of <hippo.h> before the definition; or give data that is not persistent a section of another name",
    "mismatch": "call the function by its own type",
    "known": "leave the definition to hippo, and declare the function",
    "assembly": "use <immintrin.h>: _mm_clwb, _mm_clflushopt, _mm_clflush, _mm_sfence, _mm_mfence",
    "nontemporal": "use plain stores and flushes; or give --non-temporal, which lowers to these",
    "array": "give the array its largest length; or give a bound for all such arrays by --array-bound SIZE",
    "main": "read numbers by read_i64; or give the words by --args WORD...",
    "main_type": "write int main, and return the exit status",
    "main_called": "move what main does into a function of another name, and call that one: main starts and ends the run",
    "constant": "assign the value at the start of main",
    "initialiser": "give it a constexpr constructor and declare it constinit; or construct it in main when the data say that it is new",
    "exception": "report errors by return values",
    "stream": "print by std::cout with --ignore-output or --print-numbers; read by read_i64",
    "threads": "call the work from main, or leave threads out under #ifdef; --single-thread only removes locks and atomics",
    "files": "open the file by its name with --file-calls and --pool",
    "library": "write it out, or leave it out under #ifdef: the runtime has the parts of the C++ library that storage needs",
    "limit": "hippo has this limit",
}
# Of the refusals at one place in the C++ library, those of the highest rank say which part has no form; the others are left out.
RANKS = {
    "stream": 2,
    "threads": 2,
    "files": 2,
    "exception": 1,
    "float": 1,
    "library": 0,
    "option": 0,
    "missing": 0,
    "atomic": 0,
}
# Kinds whose reasons name different functions, each of which is shown.
NAMED = ("option", "missing")
# How a place with a line ends.
AT_LINE = re.compile(r":\d+: $")


class Refused(Exception):
    """A part of the program cannot be lowered; the message gives the reason, and the kind selects the advice."""

    def __init__(self, reason: str, kind: str = "form", missing: str = "") -> None:
        """`missing` is the name of what is missing from the C++ library."""
        super().__init__(reason)
        self.kind, self.missing = kind, missing


@dataclass
class Refusals:
    """The refusals of a program by kind, in each kind by reason, and for each reason its places, all in the order of discovery."""

    kinds: dict[str, dict[str, list[str]]] = field(default_factory=dict)
    ranked: dict[str, tuple[str, int]] = field(default_factory=dict)  # lines, each with its place and its rank
    highest: dict[str, int] = field(default_factory=dict)  # the highest rank at a place
    of_files: set[str] = field(
        default_factory=set
    )  # lines whose place is a whole file, where others of their reason say more
    MOST_PLACES = 10

    def add(self, refusal: Refused, place: str = "", at: str = "") -> None:
        """Notes a refusal with its place in the C source and the line of clang's text."""
        line = f'{place}{refusal}{": " if at else ""}{at}'
        places = self.kinds.setdefault(refusal.kind, {}).setdefault(str(refusal), [])
        if line not in places:
            places.append(line)

    def add_once(self, refusal: Refused, place: str, name: str) -> None:
        """Notes a refusal for what stands at a place in the source, once for each place and kind."""
        reasons = self.kinds.setdefault(refusal.kind, {})
        places = reasons.setdefault(str(refusal), [])
        known = places if refusal.kind in NAMED else [line for lines in reasons.values() for line in lines]
        is_end = name.startswith("~") and any(f": {name[1:]}: " in line for line in places)
        if not is_end and not any(line.startswith(place) for line in known):
            places.append(f'{place}{name.lstrip("~")}: {refusal}')
            if not AT_LINE.search(place):
                self.of_files.add(places[-1])
            if refusal.kind in RANKS:
                rank = RANKS[refusal.kind]
                self.ranked[places[-1]] = (place, rank)
                self.highest[place] = max(rank, self.highest.get(place, 0))

    def says_less(self, line: str) -> bool:
        """Whether another line for the same place says more."""
        place, rank = self.ranked.get(line, ("", 0))
        return rank < self.highest.get(place, 0)

    def text(self) -> list[str]:
        """The lines to be shown: places by reason, and after each kind what to do."""
        shown: list[str] = []
        for kind, reasons in self.kinds.items():
            before = len(shown)
            for reason, given in reasons.items():
                lines = [line for line in given if not self.says_less(line)]
                lines = [line for line in lines if line not in self.of_files] or lines
                shown += lines[: self.MOST_PLACES]
                if len(lines) > self.MOST_PLACES:
                    shown.append(f"{reason}: and {len(lines) - self.MOST_PLACES} more places")
            if ADVICE[kind] and len(shown) > before:
                shown.append(f"what to do: {ADVICE[kind]}")
        return shown
