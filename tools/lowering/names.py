"""Names in the lowered text, and in LLVM's text form."""
import re

from .commands import output_of

GLOBAL_NAME = r'@("[^"]*"|[-A-Za-z$._0-9]+)'
DECLARED = re.compile(GLOBAL_NAME + r"\(")
# Letters of the arguments of a template that a line of text shows.
MOST_LETTERS = 20
# What stands before an angle bracket that belongs to an operator.
OPERATORS = ("operator", "operator<", "operator>", "operator-", "operator<=")
ESCAPED = re.compile(rb"\\([0-9A-Fa-f]{2}|\\)")


# The section of persistent data, and names that programmers mean for it.
PERSISTENT = ".pm"
LOOKS_PERSISTENT = re.compile(r"[._]+pm|pm(?![a-z])|.*(?:pmem|persist|nvm|nvram)", re.I)


def global_name(line: str) -> str:
    """The name of the global that a line begins with, with its mark."""
    found = re.match(GLOBAL_NAME, line)
    if found is None:
        raise ValueError(f"no name of a global: {line[:90]}")
    return found.group()


def function_name(head: str) -> str:
    """The name of the function that a line declares or defines, with its mark."""
    found = DECLARED.search(head)
    if found is None:
        raise ValueError(f"no name of a function: {head[:90]}")
    return f"@{found[1]}"


def clean_name(name: str, taken: dict[str, int], first: str) -> str:
    """A name that the subset can spell and that is not taken yet; it is taken then. The number of a name is the first that is tried
    where the name is wanted again."""
    base = re.sub(r"[^-A-Za-z$._0-9]", "_", name.strip('"'))
    if not re.match(r"[A-Za-z$._]", base):
        base = first + base
    free = base
    if base in taken:
        number = taken[base]
        while (free := f"{base}.{number}") in taken:
            number += 1
        taken[base] = number + 1
    taken[free] = 1
    return free


def demangled(names: list[str]) -> dict[str, str]:
    """The names of C++ as its source has them, without the types of parameters and results; other names stay."""
    mangled = sorted({name for name in names if name.startswith("_Z")})
    if not mangled:
        return {}
    return dict(zip(mangled, output_of(["llvm-cxxfilt-19", "-p"], "\n".join(mangled)).splitlines()))


def last_part(name: str) -> str:
    """The last word of a qualified name: what stands in the definition."""
    return without_arguments(name).rsplit("::", 1)[-1]


def without_arguments(name: str) -> str:
    """A name without the arguments of templates, and without what stands in a function, such as a lambda."""
    while (shorter := re.sub(r"(?<!operator)(?<!operator<)(?<!operator-)<[^<>]*>", "", name)) != name:
        name = shorter
    name = re.split(r"::(?:\$_|'lambda|\{lambda|'unnamed)", name)[0]
    return re.sub(r"(?<!operator)\(.*?\)(?: const)?(?=::|$)", "", name.replace("(anonymous namespace)::", ""))


def shortened(name: str) -> str:
    """A name for a line of text: arguments of templates that are long, or have arguments themselves, are cut to `<..>`."""
    found, depth, start, name = [], 0, 0, name.replace("std::__cxx11::", "std::")
    for place, letter in enumerate(name):
        if letter not in "<>" or name[:place].endswith(OPERATORS):
            continue
        if letter == "<":
            depth += 1
            if depth == 1:
                found.append(name[start:place])
                start = place + 1
        elif depth:
            depth -= 1
            if depth == 0:
                inside = name[start:place]
                found.append(f"<{inside}>" if len(inside) <= MOST_LETTERS and "<" not in inside else "<..>")
                start = place + 1
    return "".join(found) + name[start:] if depth == 0 else name


def with_names_of_source(lines: list[str]) -> list[str]:
    """Lines in which the names of C++ are those of its source."""
    if not any("_Z" in line for line in lines):
        return lines
    return output_of(["llvm-cxxfilt-19"], "\n".join(lines)).splitlines()


def unescaped(written: str) -> str:
    """A string of LLVM's text form, which is read as Latin-1, as Python decodes the name of a file."""
    raw = ESCAPED.sub(
        lambda found: b"\\" if found[1] == b"\\" else bytes([int(found[1], 16)]), written.encode("latin-1")
    )
    return raw.decode("utf-8", "surrogateescape")
