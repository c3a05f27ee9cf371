"""tools/lower in this process. It keeps what clang writes for a command, since most commands of several levels are equal: those that compile
the files of the runtime, and a program without LLVM's passes."""
from __future__ import annotations

import os
import shutil
import sys
from collections.abc import Iterator
from contextlib import contextmanager
from unittest import mock

sys.path.insert(0, os.path.dirname(os.path.dirname(os.path.dirname(os.path.abspath(__file__)))))
from lowering import front_end, inline, runtime  # noqa: E402
from lowering.command import assemble  # noqa: E402
from lowering.commands import Failure, output_of  # noqa: E402
from lowering.ends import WORK  # noqa: E402
from lowering.module import Module  # noqa: E402
from lowering.options import parse  # noqa: E402


class Lowering:
    """What clang wrote for each command whose files stay as they are."""

    def __init__(self) -> None:
        self.written: dict[tuple[str, ...], str] = {}

    def output_of(self, command: list[str], text: str | None = None) -> str:
        """What a command writes, or wrote before; one that reads another text, or a file of a folder that is removed, runs each time."""
        if (
            text is not None
            or "clang" not in command[0]
            or any(folder in word for word in command for folder in WORK.made)
        ):
            return output_of(command, text)
        key = tuple(command)
        if key not in self.written:
            self.written[key] = output_of(command)
        return self.written[key]

    def forget(self, file: str) -> None:
        """Forgets what is of one file."""
        self.written = {key: text for key, text in self.written.items() if file not in key}

    @contextmanager
    def in_place(self) -> Iterator[None]:
        """Lets the modules that compile take what is kept, and removes their folders afterwards."""
        with mock.patch.multiple(front_end, output_of=self.output_of), mock.patch.multiple(
            runtime, output_of=self.output_of
        ), mock.patch.multiple(inline, output_of=self.output_of):
            try:
                yield
            finally:
                for path in list(WORK.made):
                    shutil.rmtree(path, ignore_errors=True)
                WORK.made.clear()

    def text(self, words: list[str]) -> str:
        """The text that tools/lower writes for the words of a command line; a refusal is a RuntimeError."""
        with self.in_place():
            try:
                options = parse(words, "")
                module = Module(front_end.program_of(options), options)
                if refused := module.refusals.text():
                    raise RuntimeError("; ".join(refused))
                text = module.text()
                assemble(text, module)
                return text
            except Failure as failure:
                raise RuntimeError(str(failure)) from None
