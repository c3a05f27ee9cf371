"""Runs hippo and tools/lower. Their output goes to files that appear only when they are complete; a refusal becomes a Trouble."""
from __future__ import annotations

import contextlib
import json
import os
import re
import signal
import subprocess
import sys
import time
from collections.abc import Callable, Iterator
from typing import IO, TYPE_CHECKING, Any

from lowering.up_to_date import State

from . import ends, kept_texts
from .trouble import Trouble
from .writing import whole_file

if TYPE_CHECKING:
    from .request import Request

TOOLS = os.path.dirname(os.path.dirname(os.path.abspath(__file__)))
# Exit codes of hippo: a run trapped, a run was cut, no crash leaves the image of a pick.
TRAPPED, CUT, NO_PICK = 9, 10, 13
WITH_TRACE = ("check", "repair", "rerun", "crash", "thin")
MESSAGE = re.compile(
    r"^hippo: (?:usage|no file|read fault|write fault|program|trace|out of memory|no entry|pick)\b.*$", re.M
)
HINTS = (
    (r"program line 1: (syntax|unsupported)", "hippo reads LLVM text of its subset; give a .c file to hippo-c"),
    (r"trace .*(differs|early|extra|malformed)", "the trace is of another program or was cut short; record it again"),
    (r"program too large", "hippo reads at most 16 MiB of program text"),
    (r"no main at program", "give the file that defines main, too"),
    (r"usage", "the installed hippo does not know this command; install hippo and hippo-c of one version"),
    (r"not built", "set HIPPO_PROGRAM to a hippo that is built"),
    (r"function (@\S+) is not in the program", "give the file that defines it, too"),
    (r"fatal error: .* file not found", "give the folder of the header to clang: -- -Ifolder"),
)


def hippo_program() -> str:
    """The program to run: HIPPO_PROGRAM, or the one of this repository or of this installation."""
    named = os.environ.get("HIPPO_PROGRAM")
    if named:
        return named
    for folder in (TOOLS, os.path.dirname(TOOLS)):
        program = os.path.join(folder, "hippo")
        if os.access(program, os.X_OK) and not os.path.isdir(program):
            return program
    raise Trouble("hippo is not found", "set HIPPO_PROGRAM to the program")


def hint_for(message: str) -> str:
    """What to do about a message of a step, or nothing."""
    return next((hint for pattern, hint in HINTS if re.search(pattern, message)), "")


class Ended:
    """How a command ended: its exit code and what it wrote to standard error."""

    def __init__(self, code: int, notes: str) -> None:
        self.code, self.notes = code, notes

    @property
    def how(self) -> str:
        """`stop C`, `trap K` or `cut`, of a command that runs a program."""
        found = re.findall(r"^(stop -?\d+|trap \w+|cut)$", self.notes, re.M)
        return str(found[-1]) if found else ""

    def word(self, name: str) -> str:
        """The rest of the line of the notes that begins with a word."""
        found = re.search(rf"^{name}\b ?(.*)$", self.notes, re.M)
        return found[1] if found else ""


def start(command: list[str], **more: Any) -> subprocess.Popen[bytes]:
    """Starts a command, with its standard error in a pipe."""
    try:
        return ends.started(command, stdin=subprocess.DEVNULL, stderr=subprocess.PIPE, **more)
    except OSError as error:
        raise Trouble(f"{command[0]}: {error.strerror}", "set HIPPO_PROGRAM to a hippo that is built") from None


def output_of(process: subprocess.Popen[bytes]) -> IO[bytes]:
    """The pipe that has the output of a command."""
    if process.stdout is None:
        raise ValueError("the output goes to no pipe")
    return process.stdout


def finish(process: subprocess.Popen[bytes]) -> Ended:
    """Waits for a command whose output goes to a file or was read; standard error is short."""
    try:
        _, notes = process.communicate()
    except BaseException:
        stop(process)
        raise
    ends.state.processes.discard(process)
    return Ended(process.returncode, notes.decode("utf-8", "replace"))


def stop(process: subprocess.Popen[bytes]) -> None:
    """Ends a command that is no longer needed."""
    ends.end(process)
    for pipe in (process.stdout, process.stderr):
        if pipe:
            pipe.close()


def tool(words: list[str], given: bytes = b"") -> subprocess.CompletedProcess[bytes]:
    """Runs a tool of clang or LLVM on an input."""
    try:
        process = ends.started(words, stdin=subprocess.PIPE, stdout=subprocess.PIPE, stderr=subprocess.PIPE)
    except FileNotFoundError:
        raise Trouble(f"{words[0]} is not installed", "Debian: apt-get install clang-19 llvm-19") from None
    try:
        out, notes = process.communicate(given)
    finally:
        stop(process)
    interrupted_with(process.returncode)
    return subprocess.CompletedProcess(words, process.returncode, out, notes)


def interrupted_with(code: int) -> None:
    """Ends hippo-c like a command that an interrupt ended; where another signal did, one for hippo-c has a moment to come."""
    if code in (-signal.SIGINT, 128 + signal.SIGINT):
        raise ends.Signalled(signal.SIGINT)
    if code in [mark for number in ends.SIGNALS for mark in (-number, 128 + number)]:
        time.sleep(ends.MOMENT)


def hippo(
    words: list[str],
    path: str,
    accepted: tuple[int, ...] = (0,),
    watch: Callable[[subprocess.Popen[bytes], str], None] | None = None,
) -> Ended:
    """Runs hippo with its standard output in a file; any exit code that is not accepted is a Trouble.

    `watch(process, file)` is called while hippo writes the file."""
    with whole_file(path) as file:
        process = start([hippo_program(), *words], stdout=file)
        if watch:
            watch(process, file.name)
        ended = finish(process)
        accept(words, ended, accepted, path)
    return ended


def accept(words: list[str], ended: Ended, accepted: tuple[int, ...] = (0,), output: str = "") -> Ended:
    """Refuses an exit code that is not accepted, with hippo's own message and the names of the files that it is about."""
    if ended.code in accepted:
        return ended
    interrupted_with(ended.code)
    if ended.code < 0:
        raise Trouble(f"hippo was ended by signal {-ended.code}", "", words[0])
    # Other lines are the launcher's: which build answers, and which file is meant.
    said = (
        MESSAGE.findall(ended.notes)
        or re.findall(r"^hippo: .*$", ended.notes, re.M)
        or [f"hippo {words[0]} answered {ended.code}"]
    )
    message = said[0]
    raise Trouble(message, hint_for(message), words[0], files_of(message, words, output))


def files_of(message: str, words: list[str], output: str) -> list[str]:
    """Which files a message of hippo is about: its own text says `program` or `trace`, or nothing."""
    if len(words) == 1:
        return []
    program, traces = words[1], words[2:] if words[0] == "many" else words[2 : 2 + (words[0] in WITH_TRACE)]
    names = [
        f'{"trace" if words[0] != "many" else f"trace {number}"} is {path}' for number, path in enumerate(traces, 1)
    ]
    of_program = f"program is {program}, the lowered text"
    if message.startswith("hippo: write fault"):
        return [f"the output is {output}"] if output else []
    if found := re.match(r"hippo: (?:no file: )?(trace(?: \d+)?|program)\b", message):
        return (
            [of_program]
            if found[1] == "program"
            else [name for name in names if name.startswith(f"{found[1]} ")] or names
        )
    return [of_program, *names]


def lines_of(words: list[str], accepted: tuple[int, ...] = (0,)) -> Iterator[str]:
    """The lines that hippo writes, one by one; after the last line the exit code must be accepted."""
    process = start([hippo_program(), *words], stdout=subprocess.PIPE)
    try:
        for line in output_of(process):
            yield line.decode("ascii", "replace").rstrip("\n")
        accept(words, finish(process), accepted)
    finally:
        stop(process)


def lower(request: Request, path: str, requests: str = "") -> str:
    """Lowers the files of a request into one text with places, and returns the notes of tools/lower.

    If the program has requests to Valgrind, the file `requests` gets the text in which they are noted. A text that is kept is taken.
    """
    words = request.words_for_lower()
    place = kept_texts.path_of([*words, "--requests" if requests else ""])
    if found := kept_texts.find(place):
        for target, text in zip((path, requests), found.texts):
            with whole_file(target) as file:
                file.write(text)
        return found.notes
    reads = f"{path}.reads"
    second = ["--requests", requests] if requests else []
    command = [sys.executable, os.path.join(TOOLS, "lower"), *second, *(["--reads", reads] if place else []), *words]
    try:
        with whole_file(path) as file:
            ended = finish(start(command, stdout=file))
            if ended.code:
                interrupted_with(ended.code)
                raise Trouble(f"not lowered:\n{ended.notes.rstrip()}", hint_for(ended.notes), "lowering")
        if place:
            texts = [read(name) for name in (path, requests) if name and os.path.exists(name)]
            kept_texts.keep(place, states_of(reads), kept_texts.Kept(texts, ended.notes))
    finally:
        with contextlib.suppress(FileNotFoundError):
            os.unlink(reads)
    return ended.notes


def read(path: str) -> bytes:
    """The bytes of a file."""
    with open(path, "rb") as file:
        return file.read()


def states_of(path: str) -> list[State] | None:
    """The states that tools/lower wrote."""
    states = json.loads(read(path))
    return None if states is None else [State(*state) for state in states]
