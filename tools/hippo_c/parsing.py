"""The functions of C and C++ files as clang parses them."""
import json
import os
import tempfile
from collections.abc import Iterator
from functools import cache

from lowering.languages import arguments_for, is_cpp
from lowering.names import last_part, without_arguments
from typing import Any

from .clang import CLANG, clang_for
from .running import tool
from .sources import bytes_of, overlay
from .syntax import Node, Tree

# A file of fewer bytes than LARGE is parsed as a whole after FEW functions; until then, and otherwise, function by function.
FEW, LARGE = 6, 200_000
# Replaces <immintrin.h>, whose tree has 160 MB, by the part that a program for persistent memory needs.
INTRINSICS = b"""#ifndef __IMMINTRIN_H
#define __IMMINTRIN_H
void _mm_clwb(const void *);
void _mm_clflushopt(const void *);
void _mm_clflush(const void *);
void _mm_sfence(void);
void _mm_mfence(void);
void _mm_lfence(void);
void _mm_pause(void);
void _mm_stream_si32(int *, int);
void _mm_stream_si64(long long *, long long);
#endif
"""


FUNCTIONS = ("FunctionDecl", "CXXMethodDecl", "CXXConstructorDecl", "CXXDestructorDecl", "CXXConversionDecl")
AROUND = (
    "TranslationUnitDecl",
    "NamespaceDecl",
    "LinkageSpecDecl",
    "CXXRecordDecl",
    "ClassTemplateDecl",
    "FunctionTemplateDecl",
    "ClassTemplateSpecializationDecl",
    "ClassTemplatePartialSpecializationDecl",
)


class Reader:
    """Reads one document of clang's tree, in which a location names its file only if it differs from that of the last location."""

    def __init__(self, file: str) -> None:
        self.file = file
        self.home: str | None = None

    def function(self, raw: dict[str, Any]) -> Node:
        """A function with all nodes in it; those that stand in another file, as members' initial values may, have no range."""
        self.home = None
        return self.node(raw)

    def node(self, raw: dict[str, Any]) -> Node:
        """A node with all nodes in it."""
        begin = end = None
        is_here = True
        node = Node(
            raw.get("kind", ""), -1, -1, False, raw.get("opcode", ""), raw.get("name", "") or raw.get("member", "")
        )
        node.has_else = raw.get("hasElse", False)
        for key, value in raw.items():
            if key == "loc":
                self.location(value)
            elif key == "range":
                begin, end = self.location(value.get("begin", {})), self.location(value.get("end", {}))
                self.home, is_here = self.home or self.file, self.home in (None, self.file)
            elif key == "referencedDecl":
                node.name = value.get("name", "")
            elif key == "inner":
                node.inner = [self.node(child) for child in value]
        if begin and end and is_here:
            node.begin, node.end, node.macro, node.from_macro = begin[0], end[0] + end[1], begin[2] or end[2], begin[2]
        return node

    def location(self, raw: dict[str, Any]) -> tuple[int, int, bool] | None:
        """The offset, the length of the token, and whether it is in a macro's expansion."""
        if "expansionLoc" in raw:
            self.location(raw.get("spellingLoc", {}))
            found = self.location(raw["expansionLoc"])
            return found and (found[0], found[1], True)
        self.file = raw.get("file", self.file)
        return (raw["offset"], raw.get("tokLen", 0), False) if "offset" in raw else None


class Parsed:
    """The functions of one file and of the headers that it includes; clang runs when one is first needed."""

    def __init__(self, unit: str, clang: tuple[str, ...]) -> None:
        self.unit, self.clang = unit, clang
        self.functions: dict[str, list[Tree]] = {}
        self.parsed: set[str] = set()
        self.whole = False
        self.reader = Reader("")

    def named(self, name: str) -> list[Tree]:
        """The definitions of a function."""
        qualified = without_arguments(name)
        name = last_part(name)
        if qualified not in self.parsed and not self.whole:
            # The headers of C++ are too large for one tree.
            self.whole = len(self.parsed) >= FEW and len(bytes_of(self.unit)) < LARGE and not is_cpp(self.unit)
            if self.whole:
                self.functions = {}
            self.parsed.add(qualified)
            for raw in self.documents([] if self.whole else ["-Xclang", f"-ast-dump-filter={qualified}"]):
                self.take(raw, None if self.whole else name, self.reader if self.whole else Reader(""))
        return self.functions.get(name, [])

    def documents(self, filtered: list[str]) -> Iterator[dict[str, Any]]:
        """The trees that clang writes."""
        with tempfile.TemporaryDirectory(prefix="hippo-c-") as folder:
            small = overlay({intrinsics_header(): INTRINSICS}, folder)
            command = [
                *clang_for(self.unit),
                "-fsyntax-only",
                "-Wno-error=implicit-function-declaration",
                *small,
                *arguments_for(self.unit, list(self.clang)),
                "-Xclang",
                "-ast-dump=json",
                *filtered,
                self.unit,
            ]
            ran = tool(command)
        text, place, decoder = ran.stdout.decode("utf-8", "replace"), 0, json.JSONDecoder()
        while (place := text.find("{", place)) >= 0:
            raw, place = decoder.raw_decode(text, place)
            yield raw

    def take(self, raw: dict[str, Any], name: str | None, reader: Reader) -> None:
        """Keeps the definitions, each with the file that its location names, or else that of the last location."""
        if raw.get("kind") in AROUND:
            for place in (raw.get("loc", {}), *raw.get("range", {}).values()):
                reader.location(place)
            for child in raw.get("inner", []):
                self.take(child, name, reader)
            return
        before = reader.file
        function = reader.function(raw)
        if raw.get("kind") not in FUNCTIONS or name not in (None, raw.get("name")):
            return
        first = Reader(before)
        first.location(raw.get("loc", {}))
        if any(node.kind == "CompoundStmt" for node in function.inner):
            tree = Tree(first.file, bytes_of(first.file), function)
            self.functions.setdefault(raw["name"], []).append(tree)


@cache
def intrinsics_header() -> str:
    """The path of clang's <immintrin.h>."""
    ran = tool([CLANG[0], "-print-resource-dir"])
    return os.path.join(ran.stdout.decode().strip(), "include", "immintrin.h")


@cache
def parsed(unit: str, clang: tuple[str, ...]) -> Parsed:
    """The functions of a C file, the same object for each call."""
    return Parsed(unit, clang)
