"""Why a command cannot be carried out."""
from collections.abc import Iterable

from .letters import shown_line


class Trouble(Exception):
    """A step failed: the message, what the user can do about it, and the step, if a program of this project gave the message. The notes name
    the files that such a message is about."""

    def __init__(self, message: str, hint: str = "", step: str = "", notes: Iterable[str] = ()) -> None:
        super().__init__(message)
        self.hint, self.step, self.notes = hint, step, list(notes)

    def lines(self, files: list[str]) -> list[str]:
        """The lines for standard error."""
        where = f'{self.step} of {shown_line(" ".join(files))}: ' if self.step else ""
        said = f"hippo-c: error: {where}{self}".split("\n") + [f"hippo-c: note: {note}" for note in self.notes]
        said += [f"hippo-c: hint: {self.hint}"] if self.hint else []
        return list(map(shown_line, said))
