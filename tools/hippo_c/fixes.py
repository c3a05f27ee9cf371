"""Suggestions: what to add to the C for each group, by the plan of hippo's repair.

A suggestion is not proved. The repaired text is proved; `--verify-fix` checks the edited C like any other."""
from collections.abc import Sequence
from dataclasses import dataclass

from lowering.names import shortened

from .copies import Copies
from .edits import Additions
from .flushing import Flushing
from .loops import range_after
from .objects import assigned_object, is_constructor, is_of_atomics, made_object, returned_object, stored_object
from .places import SYSTEM, Place
from .plan import Insertion, Repair
from .program import Site
from .reports import Group
from .session import Session
from .syntax import Statement, Tree, Unclear, address_of
from .trees import tree_of


@dataclass
class Suggestion:
    """What to do at a place, the statements that are added there, and the edits if they are known."""

    place: Place | None
    text: str
    statements: list[str]
    additions: Additions | None = None
    reason: str = ""


class Fixer:
    """Finds the suggestions for the groups of a program."""

    def __init__(self, session: Session, repair: Repair) -> None:
        self.session, self.repair, self.places = session, repair, session.places
        self.words = Flushing(session)
        self.put_in: dict[Site, list[Insertion]] = {}
        for item in repair.insertions:
            if not item.clone:
                self.put_in.setdefault(item.site, []).append(item)

    def suggest(self, group: Group) -> Suggestion | None:
        """What to do about a group; nothing if the plan has nothing for it."""
        if group.kind == "fence" and group.flush:
            return self.after_flush((group.flush,))
        paths = (group.path, *group.more)
        if group.count > 1 and (after_loop := self.after_loop(group)):
            return after_loop
        found = [suggestion for path in paths if (suggestion := self.for_path(path))]
        return max(found, key=lambda suggestion: len(suggestion.statements)) if found else None

    def for_path(self, path: Sequence[Site]) -> Suggestion | None:
        """What to do about the store of a path, at the level that the plan has for it."""
        for level, site in enumerate(path):
            if level == 0 and site in self.put_in:
                items = self.put_in[site]
                fenced = any(item.is_fence for item in items)
                wide = any(item.instruction.callee == "pmem_flush" for item in items)
                found = self.flush(path, fenced, wide)
                return found if found.additions else self.after_construction(path, fenced) or found
            if site in self.repair.hoists:
                found = self.hoist(path, level, self.repair.hoists[site])
                return found if found.additions else self.after_construction(path[level:], True) or found
        return None

    def after_construction(self, path: Sequence[Site], fenced: bool) -> Suggestion | None:
        """A flush of the whole object after the statement that makes it, if a constructor of the user's is on the path."""
        functions = self.session.program.functions
        made = [
            number
            for number, site in enumerate(path)
            if is_constructor(functions[site[0]].name_in_c) and self.places.is_users_function(functions[site[0]])
        ]
        if not made:
            return None
        last = made[0]
        while last + 1 in made:  # the constructor of a base or of a member
            last += 1
        place, tree, statement, offset = self.located(path[last + 1 :])
        if tree is None or statement is None:
            return None
        fences = [self.fence(tree, statement)] if fenced else []
        if found := made_object(tree, statement):
            text = self.words.range(tree.file, statement.begin, *found)
            additions, reason = self.added(place, tree, statement, [text], fences)
            shown = " ".join([text, *fences])
            return Suggestion(
                place, f"add '{shown}' after this statement, which makes the object", [text, *fences], additions, reason
            )
        statements = [self.words.range(tree.file, statement.begin, "made", "sizeof *made"), *fences]
        if returned := returned_object(tree, offset, statements):
            additions = Additions()
            additions.replace(tree, returned[0])
            return Suggestion(place, f"write '{returned[1]}'", statements, additions)
        return None

    def located(self, path: Sequence[Site]) -> tuple[Place | None, Tree | None, Statement | None, int]:
        """The innermost place of the user's on a path, and the statement that stands there."""
        return self.standing(self.places.first(path))

    def standing(self, place: Place | None) -> tuple[Place | None, Tree | None, Statement | None, int]:
        """A place with the statement that stands there."""
        tree = self.tree_of(place) if place and place.exact else None
        if place is None or tree is None:
            return place, None, None, -1
        offset = tree.offset(place.line, place.column)
        return place, tree, tree.statement(offset), offset

    def tree_of(self, place: Place) -> Tree | None:
        """The definition of the function that a place is in."""
        return tree_of(self.session, place)

    def after_flush(self, path: Sequence[Site]) -> Suggestion:
        """A fence after a flush that no fence follows."""
        place, tree, statement, _ = self.standing(self.words.helpers.place(path))
        fence = self.fence(tree, statement)
        additions, reason = self.added(place, tree, statement, [], [fence])
        return Suggestion(place, f"add '{fence}' after this flush", [fence], additions, reason)

    def after_loop(self, group: Group) -> Suggestion | None:
        """One flush of the range that a loop stores, after the loop, in place of a flush after each store; nothing if it is not known."""
        items = self.put_in.get(group.path[0])
        place, tree, statement, offset = self.located(group.path[:1])
        if not items or place is None or tree is None or statement is None or not self.places.of(group.path[0]):
            return None
        stored = range_after(tree, offset)
        if stored is None or not self.words.has_range(tree.file, statement.begin):
            return None
        fences = [self.fence(tree, stored.loop)] if any(item.is_fence for item in items) else []
        text = self.words.range(tree.file, stored.loop.begin, stored.address, stored.size)
        text = f"if ({stored.condition}) {text}" if stored.condition else text
        additions = Additions()
        additions.add(tree, stored.loop, [text], fences)
        shown = " ".join([text, *fences])
        return Suggestion(place, f"add '{shown}' after this loop", [text, *fences], additions)

    def fence(self, tree: Tree | None, statement: Statement | None) -> str:
        """The fence that can be written at a statement."""
        return self.words.fence(tree.file if tree else "", statement.begin if statement else -1)

    def added(
        self, place: Place | None, tree: Tree | None, statement: Statement | None, flushes: list[str], fences: list[str]
    ) -> tuple[Additions | None, str]:
        """The edits that put statements after one, or why that is not possible."""
        reason = why_not(place, tree, statement)
        if reason or tree is None or statement is None:
            return None, reason
        additions = Additions()
        additions.add(tree, statement, flushes, fences)
        return additions, ""

    def flush(self, path: Sequence[Site], fenced: bool, wide: bool) -> Suggestion:
        """A flush after the statement that stores, and a fence if none follows."""
        place, tree, statement, offset = self.located(path)
        fence = self.fence(tree, statement)
        fences = [fence] if fenced else []
        direct = bool(self.places.of(path[0]))
        try:
            text = self.of_object(path, tree, statement, offset) or self.flush_text(
                place, tree, statement, offset, direct and not wide
            )
        except Unclear as unclear:
            more = f", and then '{fence}'" if fenced else ""
            return Suggestion(
                place, f"flush what this statement stores{more}", fences, reason=self.in_library(path) or str(unclear)
            )
        shown = " ".join([text, *fences])
        additions, reason = self.added(place, tree, statement, [text], fences)
        return Suggestion(place, f"add '{shown}' after this statement", [text, *fences], additions, reason)

    def in_library(self, path: Sequence[Site]) -> str:
        """Why there is no edit for a store inside a header of the system; an empty text if it is elsewhere."""
        function = self.session.program.functions[path[0][0]]
        if function.place is None or not function.place.file.startswith(SYSTEM):
            return ""
        return f"the store is inside '{shortened(function.name_in_c)}'; the program that hippo-c repair writes has the flush"

    def of_object(self, path: Sequence[Site], tree: Tree | None, statement: Statement | None, offset: int) -> str:
        """The flush of an object of C++ that a statement stores to: of a `std::atomic` by its functions, or of a class that is copied
        as bytes; an empty text if it is another store."""
        if tree is None or statement is None:
            return ""
        function = self.session.program.functions[path[0][0]]
        frames = self.session.program.at(path[0]).frames
        if is_of_atomics(frames and frames[0].function or function.name_in_c):
            address = stored_object(tree, statement, offset) or ""
            line = self.words.line(tree.file, statement.begin, f"*({address})", address)
            return address and line
        inner = path[1] if len(path) > 1 and function.name_in_c in ("memcpy", "memmove") else path[0]
        if not self.places.is_users_function(self.session.program.functions[inner[0]]):
            return ""
        copied = assigned_object(tree, statement, offset)
        if not copied:
            return ""
        return self.words.range(tree.file, statement.begin, address_of(copied), f"sizeof({copied})")

    def flush_text(
        self, place: Place | None, tree: Tree | None, statement: Statement | None, offset: int, one_line: bool
    ) -> str:
        """The flush of what a statement stores at a place, if its expression can be repeated."""
        if tree is None or statement is None:
            raise Unclear(why_not(place, tree, statement))
        if one_line and not self.words.has_range(tree.file, statement.begin):
            return f"_mm_clwb({address_of(tree.stored(statement, offset))});"
        return self.words.range(tree.file, statement.begin, *tree.range(statement, offset))

    def hoist(self, path: Sequence[Site], level: int, clone: str) -> Suggestion:
        """A flushing copy of a function that is called; if the function is not the user's, a flush of its range."""
        original = self.session.program.called(path, level)
        if not self.places.is_users_function(original):
            return self.flush(path[level:], True, True)
        place, tree, statement, offset = self.located(path[level:])
        name, fence = original.name_in_c, self.fence(tree, statement)
        additions, reason = self.added(place, tree, statement, [], [fence])
        copies = Copies(self)
        if additions and tree and copies.call(tree, offset, clone) and copies.finish():
            additions.merge(copies.additions)
        elif additions:
            additions, reason = None, copies.reason
        text = f"call a copy of '{shortened(name)}' here that flushes what it stores, and then '{fence}'"
        return Suggestion(place, text, [fence], additions, reason)


def why_not(place: Place | None, tree: Tree | None, statement: Statement | None) -> str:
    """Why no statement can be put after one; an empty text if one can."""
    if place is None:
        return "it stands in no file of yours"
    if not place.exact:
        return "clang merged its line with others; -O0 keeps them apart"
    if tree is None or statement is None:
        return "clang names no statement here"
    return "the statement stands in a condition or in the head of a loop" if statement.role == "other" else ""
