"""A flush of a whole range after a loop, in place of one after each store of the loop.

It is for a loop that counts one variable upwards and stores into the elements of an array with this number: `for (i = A; i < B; i++)
x[i].f = v;`. The range is that of the elements from A up to B. The loop must call nothing that may check, must not be left early, and must change
nothing that A, B and x are made of."""
from __future__ import annotations

import re
from collections.abc import Iterator
from typing import NamedTuple

from .syntax import CALLS, RANGES, Node, Statement, Tree, role_of

LEFT_EARLY = (
    "BreakStmt",
    "GotoStmt",
    "ReturnStmt",
    "IndirectGotoStmt",
    "SwitchStmt",
    "StmtExpr",
    "LambdaExpr",
    "CXXThrowExpr",
)
CASTS = ("ImplicitCastExpr", "ParenExpr")
CONSTANTS = ("IntegerLiteral", "UnaryExprOrTypeTraitExpr")
WITHIN = re.compile(r"(?:\s*\.\s*\w+|\s*\[\s*\w+\s*\])*\s*")
WORD = re.compile(r"\w+")


class Range(NamedTuple):
    """The loop as a statement, the address and the size of what it stores, and the condition under which it stores anything, or nothing."""

    loop: Statement
    address: str
    size: str
    condition: str


class Counter(NamedTuple):
    """How a loop counts: the variable, the first number, the number at which it ends, and whether this one is counted too."""

    name: str
    first: Node
    end: Node
    is_closed: bool


def range_after(tree: Tree, place: int) -> Range | None:
    """The range that the innermost loop around a store at a place stores; nothing if that is not known."""
    loop = loop_around(tree, place)
    counter = counter_of(loop.node) if loop else None
    if loop is None or counter is None:
        return None
    body = loop.node.inner[-1]
    stores = [node for node in body.walk() if node.stores and tree.operator(node) == place]
    if len(stores) != 1 or may_leave_or_check(body):
        return None
    target = stores[0].inner[0]
    element = next((node for node in target.walk() if is_element(node, counter.name)), None)
    if element is None or target.macro or not WITHIN.fullmatch(tree.text(element.end, target.end)):
        return None
    base = element.inner[0]
    if not is_fixed(loop.node, counter, base):
        return None
    return in_words(tree, loop, counter, base)


def loop_around(tree: Tree, place: int) -> Statement | None:
    """The innermost loop around a place, as a statement, if it is a `for` that stands where a statement can follow it."""
    found: Statement | None = None
    parent: Node | None = None
    number, node = 0, tree.function
    while True:
        if node.kind in ("ForStmt", "WhileStmt", "DoStmt", "CXXForRangeStmt"):
            role = role_of(parent, number) if parent else ""
            is_plain = node.kind == "ForStmt" and role in ("list", "body") and not node.macro
            found = Statement(node, node.begin, node.end, role) if is_plain else None
            if found:
                found.end = tree.stop(node) if node.inner[-1].kind == "CompoundStmt" else tree.semicolon(node.end - 1)
        inside = [(at, child) for at, child in enumerate(node.inner) if 0 <= child.begin <= place <= child.end]
        if not inside:
            return found
        parent, (number, node) = node, inside[-1]  # where one child ends and the next begins, the next


def counter_of(loop: Node) -> Counter | None:
    """How a loop counts; nothing if it is of another form."""
    if len(loop.inner) != 5:
        return None
    start, _, condition, step, _ = loop.inner
    counted = plain(step.inner[0]) if step.kind == "UnaryOperator" and step.opcode == "++" else None
    if counted is None or counted.kind != "DeclRefExpr" or condition.opcode not in ("<", "<=", "!="):
        return None
    variable = start.inner[0] if start.kind == "DeclStmt" and len(start.inner) == 1 else start
    first = variable.inner[-1] if variable.kind in ("VarDecl", "BinaryOperator") and variable.inner else None
    name = variable.name if variable.kind == "VarDecl" else plain(variable.inner[0]).name if first else ""
    left, end = condition.inner
    if first is None or name != counted.name or plain(left).name != name or plain(left).kind != "DeclRefExpr":
        return None
    if variable.kind == "BinaryOperator" and variable.opcode != "=":
        return None
    return Counter(name, first, end, condition.opcode == "<=")


def plain(node: Node) -> Node:
    """A node without the casts and parentheses around it."""
    while node.kind in CASTS and node.inner:
        node = node.inner[0]
    return node


def is_element(node: Node, name: str) -> bool:
    """Whether a node is the element of an array that a variable numbers."""
    if node.kind != "ArraySubscriptExpr" or len(node.inner) != 2:
        return False
    index = plain(node.inner[1])
    return index.kind == "DeclRefExpr" and index.name == name


def may_leave_or_check(body: Node) -> bool:
    """Whether the body of a loop may end it early, or calls what may check or store elsewhere."""
    for node in body.walk():
        if node.kind in LEFT_EARLY:
            return True
        if node.kind in CALLS:
            names = [part.name for part in node.inner[0].walk() if part.name] if node.inner else []
            if not names or names[0] not in RANGES:
                return True
    return False


def is_fixed(loop: Node, counter: Counter, base: Node) -> bool:
    """Whether the base of the array and the ends of the loop are the same after the loop, and can be written there."""
    used = [part for node in (counter.first, counter.end, base) for part in node.walk()]
    if any(part.stores or part.kind in CALLS or part.kind in ("StmtExpr", "ConditionalOperator") for part in used):
        return False
    names = {part.name for part in used if part.kind in ("DeclRefExpr", "MemberExpr") and part.name}
    inside = {node.name for node in loop.walk() if node.kind == "VarDecl"}
    changed = set(changed_in(loop))
    return not names & (inside | changed) and counter.name not in {*names, *changed_in(loop.inner[-1])}


def changed_in(node: Node) -> Iterator[str]:
    """The variables and fields that statements store to by their names."""
    for part in node.walk():
        if part.stores:
            target = plain(part.inner[0])
            if target.kind in ("DeclRefExpr", "MemberExpr"):
                yield target.name


def in_words(tree: Tree, loop: Statement, counter: Counter, base: Node) -> Range:
    """The range as it is written after the loop."""
    first, end, array = (tree.text(node.begin, tree.past(node)) for node in (counter.first, counter.end, base))
    if counter.is_closed:
        end = f"{in_brackets(end)} + 1"
    constant = all(plain(node).kind in CONSTANTS for node in (counter.first, counter.end))
    condition = "" if constant else f"{in_brackets(first)} < {in_brackets(end)}"
    element = f"{array}[0]"
    if first == "0":
        return Range(loop, array, f"{in_brackets(end)} * sizeof({element})", condition)
    count = f"({in_brackets(end)} - {in_brackets(first)})"
    return Range(loop, f"&{array}[{first}]", f"{count} * sizeof({element})", condition)


def in_brackets(text: str) -> str:
    """A text as an operand."""
    return text if WORD.fullmatch(text) else f"({text})"
