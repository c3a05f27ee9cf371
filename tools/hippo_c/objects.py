"""Statements of C++ that store into an object by its own functions: those that make it, and those of `std::atomic`."""
from __future__ import annotations

import re

from lowering.names import without_arguments

from .edits import Edit
from .syntax import CALLS, Node, Statement, Tree

MEMBERS = ("MemberExpr", "CXXDependentScopeMemberExpr", "UnresolvedMemberExpr")
NAME = re.compile(rb"\w+")
# What a statement that makes an object is followed by: its address, and its size.
Made = tuple[str, str]


def is_constructor(name_in_c: str) -> bool:
    """Whether a function is a constructor."""
    parts = without_arguments(name_in_c).split("::")
    return len(parts) > 1 and parts[-1] == parts[-2]


def is_of_atomics(name_in_c: str) -> bool:
    """Whether a function is one of `std::atomic` and its bases."""
    return without_arguments(name_in_c).startswith(("std::atomic::", "std::__atomic_base::", "std::atomic_ref::"))


def stored_object(tree: Tree, statement: Statement, place: int) -> str | None:
    """The address of the object whose function or operator is called at a place; nothing if it cannot be named again."""
    for node in statement.node.walk():
        if not node.inner or node.kind not in CALLS:
            continue
        called = node.inner[0]
        if called.kind in MEMBERS and called.inner and NAME.fullmatch(tree.source, place, called.end):
            given, arrow = called.inner[0], tree.source[:place].rstrip().endswith(b"->")
        elif node.kind == "CXXOperatorCallExpr" and place in (called.begin, node.begin) and len(node.inner) > 1:
            given, arrow = node.inner[1], False
        else:
            continue
        if given.macro or given.begin < 0 or any(part.stores for part in given.walk()):
            return None
        text = tree.text(given.begin, given.end)
        return text if arrow else f"&{text}"
    return None


def assigned_object(tree: Tree, statement: Statement, place: int) -> str | None:
    """The object of a class to which an `=` at a place assigns; nothing if it cannot be named again."""
    for node in statement.node.walk():
        if node.kind == "CXXOperatorCallExpr" and len(node.inner) == 3:
            left = node.inner[1]
            if (
                tree.after(left.end) == place
                and tree.source[place : place + 1] == b"="
                and not left.macro
                and not any(part.stores or part.kind in CALLS for part in left.walk())
            ):
                return tree.text(left.begin, left.end)
    return None


def made_object(tree: Tree, statement: Statement) -> Made | None:
    """The address and the size of the object that a statement makes: by `T *p = new ..`, `p = new ..`, or `T x(..)`."""
    for node in statement.node.walk():
        if node.kind == "VarDecl" and node.inner:
            if has_new(node):
                return node.name, f"sizeof(*{node.name})"
            return f"&{node.name}", f"sizeof({node.name})"
        if node.stores and has_new(node):
            left = tree.text(node.inner[0].begin, node.inner[0].end)
            return left, f"sizeof(*({left}))"
    return None


def returned_object(tree: Tree, place: int, statements: list[str]) -> tuple[Edit, str] | None:
    """The edit of `return new ..;` around a place, by which statements about `made` come before the return, and its text."""
    for node in tree.function.walk():
        if node.kind == "ReturnStmt" and node.begin <= place < node.end and not node.macro and has_new(node):
            value = tree.text(node.inner[0].begin, node.inner[0].end)
            text = f'auto *made = {value}; {" ".join(statements)} return made;'
            return Edit(node.begin, tree.stop(node), text), text
    return None


def has_new(node: Node) -> bool:
    """Whether an expression makes an object by `new`."""
    return any(part.kind == "CXXNewExpr" for part in node.walk())
