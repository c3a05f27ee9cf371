"""Power cuts in a run of a seeded bug: the engine of explore tries the images, and hippo confirms each failure."""
from __future__ import annotations

import os
import shutil
import subprocess
import sys

HERE = os.path.dirname(os.path.abspath(__file__))
sys.path[:0] = [HERE, os.path.dirname(HERE), os.path.abspath(os.path.join(HERE, "../../.."))]
from hippo_c.engine_lines import Reader  # noqa: E402
from hippo_c.findings import Failure, Found  # noqa: E402
from hippo_c.following import HEADER  # noqa: E402
from hippo_c.native import Engine  # noqa: E402
from hippo_c.program import Program  # noqa: E402
from hippo_c.traces import pieces  # noqa: E402
from steps import run  # noqa: E402

from seeding import NONE  # noqa: E402
from work import ANY_CODE  # noqa: E402


class Cutting:
    """The engine of a seeded text."""

    def __init__(self, text: str, folder: str, hippo: str) -> None:
        self.folder, self.hippo = folder, hippo
        os.makedirs(folder, exist_ok=True)
        self.engine = Engine(Program(text), folder)
        with open(self.engine.path, "rb") as file:
            self.content = file.read()
        self.place = self.content.find(NONE.to_bytes(8, "little"))
        if self.place < 0 or self.content.find(NONE.to_bytes(8, "little"), self.place + 1) >= 0:
            raise AssertionError("the number of the bug that is on is not once in the engine")

    def found(self, number: int, numbers: list[int], seconds: int) -> Found:
        """What the engine finds in that many seconds of a processor with the bug of a number on; 0 is no bug."""
        path = f"{self.folder}/{number}.engine"
        with open(path, "wb") as file:
            chosen = (number or NONE).to_bytes(8, "little")
            file.write(self.content[: self.place] + chosen + self.content[self.place + 8 :])
        shutil.copymode(self.engine.path, path)
        words = self.engine.words("replay", numbers, "--time", str(seconds), "--crashes", "1")
        done = subprocess.run([path, *words[1:]], stdout=subprocess.PIPE, text=True, check=False)
        os.unlink(path)
        reader = Reader(self.engine.sites)
        for line in done.stdout.splitlines():
            reader.take(line)
        return reader.found

    def confirmed(self, failure: Failure, text: str, numbers: list[int]) -> str:
        """How the run of hippo ends from the image of a failure; nothing if it ends otherwise than the engine says."""
        path, trace = f"{self.folder}/failing.ll", f"{self.folder}/failing.trace"
        with open(path, "w", encoding="latin-1") as file:
            file.write(text)
        with open(trace, "w", encoding="ascii") as file:
            words = [self.hippo, "record", path, "--", *map(str, numbers)]
            file.write(run(words, self.folder, codes=ANY_CODE).stdout)
        header = sum(1 for entry in pieces(trace) if entry.startswith(HEADER))
        events, picks = failure.cuts[0]
        words = [self.hippo, "crash", path, trace, str(header + events), *(f"{line}:{upto}" for line, upto in picks)]
        last = run(words, self.folder, codes=ANY_CODE).stderr.strip().splitlines()[-1]
        return last if last == failure.ended else ""
