"""Statements of C by clang's syntax tree: the statement at a place, what it stores, and where a line can be added."""
import re
from collections.abc import Iterator
from dataclasses import dataclass, field
from functools import cache

# The statements whose last children are statements of their own; an `else` makes two.
WITH_BODIES = ("IfStmt", "WhileStmt", "ForStmt", "SwitchStmt", "CXXForRangeStmt")
CALLS = ("CallExpr", "CXXMemberCallExpr", "CXXOperatorCallExpr", "CXXNewExpr", "CXXDeleteExpr", "UserDefinedLiteral")
LABELS = ("CaseStmt", "DefaultStmt", "LabelStmt", "AttributedStmt")
CONDITIONS = ("ConditionalOperator", "BinaryConditionalOperator", "StmtExpr")
COMMENT_OR_TEXT = re.compile(rb'\s+|//[^\n]*|/\*.*?\*/|"(?:[^"\\]|\\.)*"|\'(?:[^\'\\]|\\.)*\'|.', re.S)
# For functions of the C library: the address and the number of the bytes that a call stores, from its arguments.
RANGES = {
    "memcpy": ("{0}", "{2}"),
    "memmove": ("{0}", "{2}"),
    "memset": ("{0}", "{2}"),
    "bzero": ("{0}", "{1}"),
    "strncpy": ("{0}", "{2}"),
    "strcpy": ("{0}", "strlen({0}) + 1"),
    "strcat": ("{0}", "strlen({0}) + 1"),
    "sprintf": ("{0}", "strlen({0}) + 1"),
    "snprintf": ("{0}", "strlen({0}) + 1"),
}


class Unclear(Exception):
    """Why what a statement stores cannot be named again."""


@dataclass
class Node:
    """A node of the tree, with its range of bytes in its file; `macro` is true if one end lies in the expansion of a macro, and
    `from_macro` if it begins there."""

    kind: str
    begin: int
    end: int
    macro: bool
    opcode: str = ""
    name: str = ""
    inner: list["Node"] = field(default_factory=list)
    from_macro: bool = False
    has_else: bool = False

    def walk(self) -> Iterator["Node"]:
        """The node and all nodes in it."""
        yield self
        for child in self.inner:
            yield from child.walk()

    @property
    def stores(self) -> bool:
        """Whether the node itself is an assignment, an increment or a decrement."""
        return (
            self.kind == "BinaryOperator"
            and self.opcode == "="
            or self.kind == "CompoundAssignOperator"
            or self.kind == "UnaryOperator"
            and self.opcode in ("++", "--")
        )


@dataclass
class Statement:
    """A statement around a place; `role` is 'list' in braces, 'body' alone under an `if` or a loop, or 'other'."""

    node: Node
    begin: int
    end: int
    role: str


class Tree:
    """A function as clang parsed it, and the bytes of its file."""

    def __init__(self, file: str, source: bytes, function: Node) -> None:
        self.file, self.source, self.function = file, source, function

    def offset(self, line: int, column: int) -> int:
        """The offset of a place in the file, or -1 if there is no such line."""
        starts = line_starts(self.source)
        return starts[line - 1] + max(column, 1) - 1 if 0 < line <= len(starts) else -1

    def statement(self, place: int) -> Statement | None:
        """The innermost statement around a place."""
        found, node = None, next((node for node in self.function.inner if node.kind == "CompoundStmt"), None)
        while node is not None and not node.from_macro:
            number, inner = next(
                (
                    (number, child)
                    for number, child in enumerate(node.inner)
                    if child.begin <= place < self.reach(child, role_of(node, number))
                ),
                (0, None),
            )
            role = role_of(node, number) if inner else None
            if inner and role and not (found and found.role == "other"):
                found = Statement(inner, inner.begin, inner.end if role == "other" else self.stop(inner), role)
            node = inner
            if node and node.kind == "LambdaExpr":
                found = None  # its statements are a function's
        return found

    def reach(self, node: Node, role: str) -> int:
        """Where a node ends; for a statement from a macro, after its semicolon."""
        return self.semicolon(node.begin) if node.from_macro and role in ("list", "body") else self.past(node)

    def past(self, node: Node) -> int:
        """Where a node ends; if it ends with a macro, after the arguments of the macro."""
        opening = self.after(node.end)
        if not node.macro or self.source[opening : opening + 1] != b"(":
            return node.end
        depth = 0
        for token in COMMENT_OR_TEXT.finditer(self.source, opening):
            depth += (token[0] == b"(") - (token[0] == b")")
            if depth == 0:
                return token.end()
        return node.end

    def stop(self, node: Node) -> int:
        """Where a statement ends: after its semicolon, if it has one."""
        if node.kind.endswith("Stmt") and node.kind not in ("DeclStmt", "ReturnStmt", "DoStmt") and not node.macro:
            return node.end
        return self.semicolon(node.begin if node.macro else node.end - 1)

    def semicolon(self, place: int) -> int:
        """The offset after the first semicolon from a place on that is outside of brackets."""
        depth = 0
        for token in COMMENT_OR_TEXT.finditer(self.source, place):
            depth += (token[0] in (b"(", b"[", b"{")) - (token[0] in (b")", b"]", b"}"))
            if token[0] == b";" and depth <= 0:
                return token.end()
        return len(self.source)

    def text(self, begin: int, end: int) -> str:
        """The text of a range."""
        return self.source[begin:end].decode("utf-8", "surrogateescape")

    def indent(self, place: int) -> str:
        """The blanks before the first word of the line."""
        start = self.source.rfind(b"\n", 0, place) + 1
        line = self.source[start:place]
        return line[: len(line) - len(line.lstrip(b" \t"))].decode()

    def stored(self, statement: Statement, place: int) -> str:
        """The expression to which the statement stores at a place, if it can be evaluated again without an effect."""
        if any(node.kind in CONDITIONS or node.opcode in ("&&", "||") for node in statement.node.walk()):
            raise Unclear("the statement stores under a condition")
        stores = [node for node in statement.node.walk() if node.stores]
        exact = [node for node in stores if self.operator(node) == place]
        if not exact and len(stores) != 1:
            raise Unclear("several assignments may be meant" if stores else "no assignment stands here")
        target = (exact or stores)[0]
        left = target.inner[0]
        others = [node for node in stores if node is not target]
        if any(node.stores or node.kind in CALLS for node in left.walk()) or changes(others, left):
            raise Unclear("its address has an effect")
        end = self.operator(target) if left.macro and exact else left.end
        if left.macro and not (exact and statement.node is target):
            raise Unclear("a macro makes the assignment")
        return self.text(left.begin, end).strip()

    def operator(self, node: Node) -> int:
        """Where the operator of an assignment stands."""
        left = node.inner[0]
        if node.kind == "UnaryOperator":
            return node.begin if node.begin < left.begin else self.after(left.end)
        if not left.macro:
            return self.after(left.end)
        return self.source.find(node.opcode.encode(), left.begin, node.inner[1].begin)

    def after(self, place: int) -> int:
        """The first offset from a place on that is in no comment and no blank."""
        for token in COMMENT_OR_TEXT.finditer(self.source, place):
            if not token[0].isspace() and not token[0].startswith((b"//", b"/*")):
                return token.start()
        return place

    def range(self, statement: Statement, place: int) -> tuple[str, str]:
        """The address and the size of what a call of the C library or a copy of a struct stores at a place."""
        calls = [node for node in statement.node.walk() if node.kind in CALLS and node.begin == place]
        if not calls:
            left = self.stored(statement, place)
            return address_of(left), f"sizeof({left})"
        names = [node.name for node in calls[0].inner[0].walk() if node.name]
        form = RANGES.get(re.sub(r"^__builtin_(?:___)?|_chk$", "", names[0])) if names else None
        called, *arguments = calls[0].inner
        if called.macro:
            raise Unclear("a macro makes the call")
        if not form:
            raise Unclear("what the call stores is not known")
        if any(has_effect(node) for node in arguments):
            raise Unclear("an argument of the call has an effect")
        texts = [self.text(node.begin, self.past(node)) for node in arguments]
        return form[0].format(*texts), form[1].format(*texts)

    def call_of(self, place: int) -> Node | None:
        """The call that begins at a place."""
        return next((node for node in self.function.walk() if node.kind in CALLS and node.begin == place), None)


def role_of(parent: Node, number: int) -> str:
    """The role of a child of a node as a statement; an empty text if it is none."""
    if parent.kind == "CompoundStmt":
        return "list"
    if parent.kind in LABELS:
        return "list" if number == len(parent.inner) - 1 else ""
    if parent.kind == "DoStmt":
        return "body" if number == 0 else "other"
    if parent.kind in WITH_BODIES:
        return "body" if number >= len(parent.inner) - 1 - parent.has_else else "other"
    return "other" if parent.kind == "ReturnStmt" else ""


def has_effect(node: Node) -> bool:
    """Whether an expression stores or calls."""
    return any(part.stores or part.kind in CALLS for part in node.walk())


def changes(stores: list[Node], left: Node) -> bool:
    """Whether other stores of a statement change a variable that an expression names."""
    named = {node.name for node in left.walk() if node.kind == "DeclRefExpr"}
    return any(store.inner[0].kind == "DeclRefExpr" and store.inner[0].name in named for store in stores)


def address_of(expression: str) -> str:
    """The address of what an expression names."""
    return expression[1:].strip() if expression.startswith("*") else f"&{expression}"


@cache
def line_starts(source: bytes) -> list[int]:
    """The offsets at which lines begin."""
    starts = [0]
    for found in re.finditer(rb"\r\n|\n|\r", source):
        starts.append(found.end())
    return starts
