"""What is seen, and changed, in the text of a file before LLVM's passes: throws of C++, and persistent globals that the program would
make or destroy in each run."""
import re
from dataclasses import dataclass, field
from typing import Any

from .throws import without_throws

PERSISTENT = re.compile(r'^@("[^"\n]*"|[-A-Za-z$._0-9]+) = [^\n]* section "\.pm"', re.M)
# The functions that make the globals of a file, and those that destroy arrays.
AT_START = re.compile(
    r'^define [^@\n]*@(?!__cxx_global_array_dtor)[^\n]* section "\.text\.startup"[^\n]*\n(.*?)^\}', re.M | re.S
)
OF_ARRAYS = re.compile(r"^define [^@\n]*@__cxx_global_array_dtor[^\n]*\n(.*?)^\}", re.M | re.S)
CALL = re.compile(r'call [^@]*@("[^"]*"|[-A-Za-z$._0-9]+)\((.*)')
CONSTRUCTOR = re.compile(r"C[1-5](?:E|I\w*E)")
# The library writes a number as text into an array whose length its caller states; this one holds the text of any number.
TEXT_OF_NUMBER = re.compile(r"^define [^@\n]*@_ZN9__gnu_cxx12__to_xstringI.*?^\}", re.M | re.S)
STORE = re.compile(r"store .*, (ptr [^,]*(?:\(.*\))?)")


@dataclass
class Facts:
    """What a file is noted or refused for. The names of globals are as LLVM spells them. `inline` has for source files whose text before
    the passes was seen the functions that have their bodies there, and that another file may define."""

    throws: bool = False
    made: set[str] = field(default_factory=set)
    destroyed: set[str] = field(default_factory=set)
    inline: dict[str, set[str]] = field(default_factory=dict)

    def add(self, other: "Facts") -> None:
        """Joins the facts of another file."""
        self.throws |= other.throws
        self.made |= other.made
        self.destroyed |= other.destroyed
        self.inline.update(other.inline)

    def written(self) -> dict[str, Any]:
        """The facts as JSON has them."""
        inline = {file: sorted(names) for file, names in self.inline.items()}
        return {
            "throws": self.throws,
            "made": sorted(self.made),
            "destroyed": sorted(self.destroyed),
            "inline": inline,
        }


def facts_of(written: dict[str, Any]) -> Facts:
    """The facts that JSON has."""
    inline = {file: set(names) for file, names in written["inline"].items()}
    return Facts(written["throws"], set(written["made"]), set(written["destroyed"]), inline)


def changed(text: str) -> tuple[str, Facts]:
    """The text for the passes, and its facts."""
    facts = Facts()
    persistent = [name.strip('"') for name in PERSISTENT.findall(text)]
    if persistent:
        facts.made = set(filter(lambda name: is_guarded(name, text), persistent)) | made_at_start(persistent, text)
        facts.destroyed = destroyed_at_end(persistent, text)
    text, facts.throws = without_throws(text)
    text = TEXT_OF_NUMBER.sub(lambda found: re.sub(r"(= alloca i\d+), i64 %\S+,", r"\1, i64 4992,", found[0]), text)
    return text, facts


def is_guarded(name: str, text: str) -> bool:
    """Whether a function, or each of several files, makes a global unless its guard says that it is made."""
    return name.startswith("_Z") and re.search(rf"^@_ZGV{re.escape(name[2:])} = ", text, re.M) is not None


def names_in(text: str, names: list[str]) -> set[str]:
    """Those of the names that a text has."""
    words = {word.strip('"') for word in re.findall(r'@("[^"]*"|[-A-Za-z$._0-9]+)', text)}
    return words.intersection(names)


def made_at_start(persistent: list[str], text: str) -> set[str]:
    """The persistent globals that constructors, calls and stores make before `main`."""
    found: set[str] = set()
    for body in AT_START.findall(text):
        for line in body.split("\n"):
            found |= names_in(target_of(line), persistent)
    return found


def target_of(line: str) -> str:
    """The part of an instruction that names what it makes: the target of a store, a copy, a constructor or a result in memory."""
    if " = phi ptr " in line:
        return line
    if called := CALL.search(line):
        first = first_argument(called[2])
        is_maker = CONSTRUCTOR.search(called[1]) or " sret(" in first or called[1].startswith("llvm.mem")
        return first if is_maker else ""
    stored = STORE.search(line)
    return stored[1] if stored else ""


def first_argument(arguments: str) -> str:
    """The text up to the first comma outside of parentheses."""
    depth = 0
    for place, letter in enumerate(arguments):
        depth += (letter in "([{") - (letter in ")]}")
        if depth < 0 or depth == 0 and letter == ",":
            return arguments[:place]
    return arguments


def destroyed_at_end(persistent: list[str], text: str) -> set[str]:
    """The persistent globals whose destructors the program registers."""
    registered = [line for line in text.split("\n") if "@__cxa_atexit(" in line and "call " in line]
    return names_in("\n".join([*registered, *OF_ARRAYS.findall(text)]), persistent)
