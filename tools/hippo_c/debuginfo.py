"""A repaired program with debug information, for llc, gdb and perf: the places in C of the program before the repair."""
import os

from lowering.languages import is_cpp
from lowering.lines import Frame

from .plan import Repair
from .program import Function, Program, Site

FLAGS = ('!{i32 7, !"Dwarf Version", i32 5}', '!{i32 2, !"Debug Info Version", i32 3}')


class DebugInfo:
    """The metadata of a text, numbered in the order of first use."""

    def __init__(self) -> None:
        self.lines: list[str] = []
        self.numbers: dict[object, int] = {}
        self.files: dict[str, int] = {}
        self.unit = self.node("unit", "")

    def node(self, key: object, text: str) -> int:
        """The number of a node; a node with a known key is not written again."""
        if key not in self.numbers:
            self.numbers[key] = len(self.lines)
            self.lines.append(text)
        return self.numbers[key]

    def file(self, name: str) -> int:
        """The number of a file."""
        folder = "" if os.path.isabs(name) else os.getcwd()
        self.files[name] = self.node(("file", name), f"!DIFile(filename: {quoted(name)}, directory: {quoted(folder)})")
        return self.files[name]

    def subprogram(self, name: str, linkage: str, file: str, line: int, part: str = "") -> int:
        """A function; `part` distinguishes the inlined copies of one."""
        kind = self.node("types", "!DISubroutineType(types: !{})")
        number = self.file(file)
        return self.node(
            ("function", name, linkage, file, part),
            (
                f"distinct !DISubprogram(name: {quoted(name)}, linkageName: {quoted(linkage)}, scope: !{number}, "
                f"file: !{number}, line: {line}, type: !{kind}, scopeLine: {line}, spFlags: DISPFlagDefinition, "
                f"unit: !{self.unit})"
            ),
        )

    def location(self, frames: tuple[Frame, ...], scope: int) -> int:
        """A place and the places that it was inlined at."""
        outer = ""
        for level, frame in enumerate(reversed(frames)):
            inner = (
                scope if level == 0 else self.subprogram(frame.function or "?", "", frame.file, frame.line, "inlined")
            )
            distinct = "distinct " if level < len(frames) - 1 else ""
            text = f"{distinct}!DILocation(line: {frame.line}, column: {frame.column}, scope: !{inner}{outer})"
            number = self.node((frames[len(frames) - 1 - level :], scope, distinct), text)
            outer = f", inlinedAt: !{number}"
        return number

    def text(self) -> str:
        """All nodes, with those that the module names."""
        file = next(iter(self.files.values()), None)
        if file is None:
            return ""
        language = "DW_LANG_C_plus_plus_14" if any(map(is_cpp, self.files)) else "DW_LANG_C11"
        self.lines[self.unit] = (
            f'distinct !DICompileUnit(language: {language}, file: !{file}, producer: "hippo-c", '
            "isOptimized: true, runtimeVersion: 0, emissionKind: LineTablesOnly)"
        )
        flags = [self.node(flag, flag) for flag in FLAGS]
        return (
            "\n".join(
                [
                    f"!llvm.dbg.cu = !{{!{self.unit}}}",
                    f'!llvm.module.flags = !{{{", ".join(f"!{flag}" for flag in flags)}}}',
                    *(f"!{number} = {line}" for number, line in enumerate(self.lines)),
                ]
            )
            + "\n"
        )


def quoted(name: str) -> str:
    """A string as LLVM's text form has it."""
    raw = name.encode("utf-8", "surrogateescape")
    return (
        '"' + "".join(chr(byte) if 32 <= byte < 127 and byte not in b'"\\' else f"\\{byte:02X}" for byte in raw) + '"'
    )


def with_debug_info(repair: Repair, head: list[str], functions: list[tuple[Function, str]]) -> str:
    """A text of these functions of the repaired program, each with its head, in which instructions have their places."""
    info, out = DebugInfo(), list(head)
    for function, head_text in functions:
        original = repair.program.functions[repair.clones.get(function.name, function.name)]
        if original.place is None:
            out.append(head_text)
            scope = None
        else:
            place = original.place
            scope = info.subprogram(original.name_in_c, function.name, place.file, place.line)
            out.append(head_text.replace(" {", f" !dbg !{scope} {{"))
        for block in function.blocks:
            out += [f"{block.label}:", *(f"  {phi}" for phi in block.phis)]
            for index, instruction in enumerate(block.instructions):
                frames = places_of(repair, (function.name, block.label, index))
                mark = f", !dbg !{info.location(frames, scope)}" if scope is not None and frames else ""
                out.append(f"  {instruction.text}{mark}")
        out.append("}")
    return "\n".join(out) + "\n" + info.text()


def places_of(repair: Repair, site: Site) -> tuple[Frame, ...]:
    """The frames of an instruction of the repaired program; line 0 of its function if none are known."""
    original = repair.program.instruction(repair.site_of(site))
    if original and original.frames:
        return original.frames
    function = repair.program.functions[repair.clones.get(site[0], site[0])]
    return (Frame(function.place.file, 0, 0),) if function.place else ()


def plain(program: Program) -> str:
    """A program's text without comments."""
    out = list(program.head)
    for function in program.functions.values():
        out.append(function.head)
        for block in function.blocks:
            out += [f"{block.label}:", *(f"  {phi}" for phi in block.phis)]
            out += [f"  {instruction.text}" for instruction in block.instructions]
        out.append("}")
    return "\n".join(out) + "\n"
