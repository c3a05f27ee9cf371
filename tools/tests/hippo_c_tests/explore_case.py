"""What the tests of the command explore share: the programs of the folder bugs, and what the engine says of them."""
import os
import subprocess

from .common import Case

from hippo_c.native import Engine
from hippo_c.program import Program
from hippo_c.progress import Progress
from hippo_c.request import Request
from hippo_c.session import Session

BUGS = os.path.join(os.path.dirname(__file__), "bugs")
NAMES = sorted(name[:-2] for name in os.listdir(BUGS) if name.endswith(".c"))


def numbers_of(name: str) -> list[int]:
    """The given input of a program."""
    with open(f"{BUGS}/{name}.in", encoding="ascii") as file:
        return list(map(int, file.read().split()))


class BugCase(Case):
    """Tests with the programs of the folder bugs."""

    def engine_of(self, name: str, bug: int, change: str = "") -> Engine:
        """The engine of a program with its bug or without it."""
        folder = self.path(f"{name}.{bug}")
        os.makedirs(folder, exist_ok=True)
        text = self.lower(f"{BUGS}/{name}.c", "--", f"-DBUG={bug}", "-DVALID")
        return Engine(Program(text.replace(change, "", 1) if change else text), folder)

    def lines(self, engine: Engine, command: str, numbers: list[int], *options: str) -> list[str]:
        """What the engine says; the last line is a summary."""
        ran = self.command(*engine.words(command, numbers, *options))
        self.assertEqual((ran.returncode, ran.stderr), (0, ""), options)
        lines = str(ran.stdout).rstrip("\n").split("\n")
        self.assertTrue(lines[-1].startswith("summary "), lines)
        return lines

    def failures(self, engine: Engine, command: str, numbers: list[int], *options: str) -> int:
        """The number of failures that the engine finds."""
        return sum(line.startswith("failure ") for line in self.lines(engine, command, numbers, *options))

    def bug(self, name: str, *words: str, code: int) -> subprocess.CompletedProcess[str]:
        """Explores a program with its bug, from its given input."""
        return self.hippo_c(
            "explore",
            f"{BUGS}/{name}.c",
            "--input-file",
            f"{BUGS}/{name}.in",
            *words,
            "--",
            "-DBUG=1",
            "-DVALID",
            code=code,
        )

    def session(self, name: str) -> Session:
        """The session of a program with its bug."""
        request = Request([f"{BUGS}/{name}.c"], ["-DBUG=1", "-DVALID"], inputs=[numbers_of(name)], folder=self.folder)
        session = Session(request, Progress(shown=False))
        return session

    def engine_in(self, session: Session) -> Engine:
        """The engine of the program of a session."""
        return Engine(session.program, self.folder)
