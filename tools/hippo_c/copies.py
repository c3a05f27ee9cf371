"""Flushing copies of C functions: the clones of hippo in C."""
from __future__ import annotations

import re
from typing import TYPE_CHECKING

from lowering.names import last_part

from .edits import Additions, Edit, applied
from .places import Place, head_of
from .program import Site
from .syntax import Statement, Tree, Unclear

if TYPE_CHECKING:
    from .fixes import Fixer


class Copies:
    """The copies that the calls of some clones need."""

    def __init__(self, fixer: Fixer) -> None:
        self.fixer, self.repair = fixer, fixer.repair
        self.additions = Additions()
        self.waiting: list[str] = []
        self.trees: dict[str, Tree] = {}
        self.uses: dict[str, list[tuple[Tree, int]]] = {}
        self.reason = "the call is not written by its name"

    def name_of(self, clone: str) -> str:
        """The name of a copy in C."""
        original = self.fixer.session.program.functions[self.repair.clones[clone]]
        return f"{last_part(original.name_in_c)}_flushed"

    def call(self, tree: Tree, offset: int, clone: str, additions: Additions | None = None) -> bool:
        """Replaces the name of the called function at a place by that of its copy; false if the name does not stand there."""
        name = self.name_of(clone)[: -len("_flushed")].encode()
        if tree.source[offset : offset + len(name)] != name:
            return False
        (additions or self.additions).replace(tree, Edit(offset, offset + len(name), self.name_of(clone)))
        self.uses.setdefault(clone, []).append((tree, tree.function.begin))
        if clone not in self.trees and clone not in self.waiting:
            self.waiting.append(clone)
        return True

    def finish(self) -> bool:
        """Writes each copy after its original; false if that is not possible for one of them."""
        while self.waiting:
            clone = self.waiting.pop(0)
            try:
                copied = self.copy(clone)
            except Unclear as reason:
                self.reason = f"in '{self.name_of(clone)[:-len('_flushed')]}' {reason}"
                return False
            if not copied:
                self.reason = f"'{self.name_of(clone)[:-len('_flushed')]}' cannot be copied by rule"
                return False
        self.reason = "the copied functions are in several files"
        return all(self.declare(clone) for clone in self.trees)

    def copy(self, clone: str) -> bool:
        """Writes the copy for a clone: the text of its function under another name, with the flushes; false if that is not possible."""
        original = self.fixer.session.program.functions[self.repair.clones[clone]]
        tree = original.place and self.fixer.tree_of(head_of(original))
        if not tree:
            return False
        self.trees[clone] = tree
        inside = Additions()
        inside.sources[tree.file] = tree.source
        if not self.flush_stores(clone, tree, inside) or not self.follow_calls(clone, tree, inside):
            return False
        head = re.compile(rb"\b" + re.escape(last_part(original.name_in_c).encode()) + rb"\b").search(
            tree.source, tree.function.begin
        )
        if head is None:
            return False
        inside.replace(tree, Edit(head.start(), head.end(), self.name_of(clone)))
        text = applied(tree.source, inside.edits(tree.file), tree.function.begin, tree.function.end)
        end = tree.function.end
        self.additions.replace(tree, Edit(end, end, "\n\n" + text.decode("utf-8", "surrogateescape")))
        return True

    def statement(self, site: Site, tree: Tree) -> tuple[Place | None, Statement | None, int]:
        """The place of an instruction in a function, its statement, and its offset in the file."""
        places = self.fixer.places.of(site)
        place = next((place for place in places if place.exact and place.file == tree.file), None)
        offset = tree.offset(place.line, place.column) if place else -1
        return place or next(iter(places), None), (tree.statement(offset) if place else None), offset

    def flush_stores(self, clone: str, tree: Tree, inside: Additions) -> bool:
        """Puts a flush after each store that has one in the clone; false if that is not possible."""
        for item in self.repair.insertions:
            if item.clone != clone or item.is_fence:
                continue
            place, statement, offset = self.statement(item.site, tree)
            text = self.fixer.flush_text(place, tree, statement, offset, item.instruction.callee != "pmem_flush")
            if statement is None or statement.role == "other":
                return False
            inside.add(tree, statement, [text], [])
        return True

    def follow_calls(self, clone: str, tree: Tree, inside: Additions) -> bool:
        """Replaces the calls in a copy by calls of copies; after a call of a function that is not the user's it puts a flush of the range."""
        program, original = self.fixer.session.program, self.repair.clones[clone]
        cloned = {name: one for one, name in self.repair.clones.items()}
        for site, instruction in program.sites():
            if site[0] != original or instruction.callee not in cloned:
                continue
            place, statement, offset = self.statement(site, tree)
            called = program.functions[instruction.callee]
            if not self.stores(instruction.callee):
                continue
            if called.is_dispatch:
                return False
            if self.fixer.places.is_users_function(called):
                if not self.call(tree, offset, cloned[instruction.callee], inside):
                    return False
                continue
            text = self.fixer.flush_text(place, tree, statement, offset, False)
            if statement is None or statement.role == "other":
                return False
            inside.add(tree, statement, [text], [])
        return True

    def stores(self, name: str, seen: frozenset[str] = frozenset()) -> bool:
        """Whether the clone of a function flushes anything, itself or by its calls."""
        if name in seen:
            return False
        cloned = {original: clone for clone, original in self.repair.clones.items()}
        if any(item.clone == cloned.get(name) for item in self.repair.insertions):
            return True
        function = self.fixer.session.program.functions[name]
        callees = {one.callee for block in function.blocks for one in block.instructions} & set(cloned)
        return any(self.stores(callee, seen | {name}) for callee in callees)

    def declare(self, clone: str) -> bool:
        """Declares a copy before its first use if that comes before it in the file; false if another file uses it."""
        tree = self.trees[clone]
        if any(use.file != tree.file for use, _ in self.uses[clone]):
            return False
        first = min(begin for _, begin in self.uses[clone])
        if first < tree.function.begin:
            body = next(node for node in tree.function.inner if node.kind == "CompoundStmt")
            head = tree.text(tree.function.begin, body.begin).strip()
            original = self.name_of(clone)[: -len("_flushed")]
            head = re.sub(rf"\b{re.escape(original)}\b", self.name_of(clone), head, count=1)
            self.additions.replace(tree, Edit(first, first, f"{head};\n\n"))
        return True
