"""Throws of C++: each is a trap, since each call of the subset ends by its return.

By `-fignore-exceptions` no call has a second end, and no handler is left. A `throw` is a call that takes memory for the exception,
what makes the exception, and a call that throws it. The trap takes the place of all three; the library's functions that throw
are replaced as well, so the trap has their caller's place."""
import re

NAME = r'("[^"]*"|[-A-Za-z$._0-9]+)'
FUNCTION = re.compile(r"^define .*?^\}$", re.M | re.S)
THROWING = r"@(?:__cxa_(?:allocate_exception|rethrow|throw|throw_bad_array_new_length|bad_cast|bad_typeid)|_ZSt\d+__throw_\w+)\("
THROW = re.compile(
    rf" *(?:%\S+ = )?(?:(?:tail|notail|musttail) )?call [^@\n]*{THROWING}.*?(, !dbg !\d+)?(?:, ![-\w.]+ !\d+)*$"
)
LABEL = re.compile(NAME + ":")
GOES_TO = re.compile(r"\blabel %" + NAME)
PHI = re.compile(r"( *%\S+ = phi .*?)(\[ [^\n]* \])((?:, ![-\w.]+ !\d+)*)$")
EDGE = re.compile(r'\[ (?:"[^"]*"|[^"\[\]]|\[[^\]]*\])*?, %' + NAME + r" \]")
TRAP = "call void @llvm.trap() nomerge"
DECLARATION = "declare void @llvm.trap()"


def without_throws(text: str) -> tuple[str, bool]:
    """A module in which each throw is a trap, and whether it had a throw."""
    if not re.search(THROWING, text):
        return text, False
    changed = FUNCTION.sub(lambda found: cut(found[0]) if re.search(THROWING, found[0]) else found[0], text)
    if changed == text:
        return text, False
    return changed if DECLARATION in changed else f"{changed}\n{DECLARATION}\n", True


def cut(function: str) -> str:
    """A function up to its throws, without the blocks that only a throw reached."""
    head, *lines = function.split("\n")
    if re.search(THROWING, head):
        return function  # the program has a function of its own for this throw
    blocks: dict[str, list[str]] = {}
    label, ended, thrown = "", False, False
    for line in lines[:-1]:
        if (named := LABEL.match(line)) or not blocks:
            label, ended = named[1] if named else "", False
            blocks[label] = []
        if ended:
            continue
        blocks[label].append(line)
        if found := THROW.match(line):
            blocks[label][-1:] = [f'  {TRAP}{found[1] or ""}', f'  unreachable{found[1] or ""}', ""]
            ended = thrown = True
    return "\n".join([head, *reached_lines(blocks), lines[-1]]) if thrown else function


def reached_lines(blocks: dict[str, list[str]]) -> list[str]:
    """The lines of the blocks that the first one reaches."""
    goes_to = {name: set(GOES_TO.findall("\n".join(lines))) for name, lines in blocks.items()}
    reached: set[str] = set()
    waiting = [next(iter(blocks))]
    while waiting:
        name = waiting.pop()
        if name not in reached:
            reached.add(name)
            waiting += goes_to[name]
    kept = [name for name in blocks if name in reached]
    comes_from: dict[str, set[str]] = {}
    for name in kept:
        for target in goes_to[name]:
            comes_from.setdefault(target, set()).add(name)
    return [with_edges(line, comes_from.get(name, set())) for name in kept for line in blocks[name]]


def with_edges(line: str, comes_from: set[str]) -> str:
    """A line; a phi has only the edges from blocks that are left."""
    if not (phi := PHI.match(line)):
        return line
    kept = [edge[0] for edge in EDGE.finditer(phi[2]) if edge[1] in comes_from]
    return phi[1] + ", ".join(kept) + phi[3]
