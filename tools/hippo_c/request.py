"""What a command runs: the files, how they are lowered, and the inputs."""
from __future__ import annotations

from dataclasses import dataclass, field
from functools import cached_property
from typing import TYPE_CHECKING

from lowering.commands import Failure
from lowering.compile_commands import own_arguments
from lowering.languages import arguments_for, is_source

from .boundaries import Boundary
from .builds import is_of_build
from .built_objects import Objects
from .trouble import Trouble

if TYPE_CHECKING:
    from .crashed_inputs import CrashedInput

IGNORE_OUTPUT = "--ignore-output"
OUTPUT = {IGNORE_OUTPUT, "--print-numbers"}


@dataclass
class Request:
    """What a command runs: files, arguments for clang, words for lower, the numbers of each input, the limit of turns."""

    files: list[str]
    clang: list[str] = field(default_factory=list)
    lower: list[str] = field(default_factory=list)
    inputs: list[list[int]] = field(default_factory=lambda: [[]])
    limit: int | None = None
    folder: str = ""
    expand: bool = False
    arguments: list[str] = field(default_factory=list)
    boundaries: list[Boundary] = field(default_factory=list)
    crashed: list[CrashedInput] = field(default_factory=list)
    wants_declared: bool = False
    heeds_suppressions: bool = False
    flush_with: str = ""
    fence_with: str = ""
    compile_commands: str = ""
    is_strict: bool = True
    traps_unsupported: bool = False
    shares_arguments: bool = False

    def words_for_lower(self) -> list[str]:
        """The words of `tools/lower`: those that are given, and what a command assumes that is not strict."""
        words, arguments = [word for word in self.lower if not is_of_build(word)], self.arguments
        if not self.is_strict and not self.says_output():
            words.append(IGNORE_OUTPUT)
        if not self.is_strict and not arguments and "--args-from-input" not in words:
            arguments = ["--args"]
        if self.traps_unsupported:
            words.append("--trap-unsupported")
        if self.shares_arguments:
            words += [f"--compile-commands={self.compile_commands}", "--share-arguments"]
        clang = ["--", *self.clang] if self.clang else []
        return ["--lines", *words, *self.files, *arguments, *clang]

    def says_output(self) -> bool:
        """Whether an option says what text output does."""
        return bool(OUTPUT.intersection(self.lower))

    @cached_property
    def objects(self) -> Objects:
        """What the objects among the files were made of."""
        return Objects(self.files)

    def sources(self) -> list[str]:
        """The sources of the program that are there as they were compiled."""
        return [*filter(is_source, self.files), *self.objects.words]

    def clang_of(self, file: str) -> list[str]:
        """The arguments of clang for one file."""
        if file in self.objects.words:
            return arguments_for(file, self.objects.words[file])
        try:
            return arguments_for(
                file, [*own_arguments(file, self.compile_commands, self.shares_arguments), *self.clang]
            )
        except Failure as failure:
            raise Trouble(str(failure)) from None
