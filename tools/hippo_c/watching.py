"""`--watch`: the command again after each change of a file that it read."""
from __future__ import annotations

import argparse
import os
import subprocess
import sys
import tempfile
import time

from . import config, ends, running
from .depfile import WORD
from .letters import shown
from .trouble import Trouble

OPTION = "--watch"
SECONDS = 0.3
CLEAR = "\x1b[2J\x1b[H"


def add_option(command: argparse.ArgumentParser) -> None:
    """The option that repeats the command."""
    command.add_argument(
        OPTION, action="store_true", help="answer again after each change of a file that was read; an interrupt ends it"
    )


def watch(options: argparse.Namespace, words: list[str]) -> int:
    """Carries out the command, and again after each change, until a signal ends it."""
    if "-" in (options.json, options.sarif, options.html, options.diff):
        raise Trouble(f"{OPTION}: give {OPTION} or an answer on standard output, not both")
    place = words.index(options.command) + 1
    end = next((number for number, word in enumerate(words) if word in ("--args", "--")), len(words))
    kept = [word for word in words[place:end] if word != OPTION]
    with tempfile.TemporaryDirectory(prefix="hippo-c-") as room:
        listed = options.depfile or os.path.join(room, "answer.d")
        more = [] if options.depfile else ["--depfile", listed]
        command = [sys.executable, os.path.join(running.TOOLS, "hippo-c"), *words[:place], *more, *kept, *words[end:]]
        files: set[str] = set()
        while True:
            say_start()
            before = time.time_ns()
            process = ends.started(command, stdin=subprocess.DEVNULL)
            process.wait()
            running.stop(process)
            files = read_files(listed) or files | set(options.files)
            wait_for_change({*files, *filter(None, [config.find()])}, before)


def say_start() -> None:
    """Clears a terminal."""
    if sys.stdout.isatty():
        sys.stdout.write(CLEAR)
        sys.stdout.flush()


def read_files(listed: str) -> set[str]:
    """The files of a rule of make; none if it was not written."""
    try:
        with open(listed, encoding="utf-8", errors="surrogateescape") as file:
            rule = file.read().replace("\\\n", " ").partition(":")[2].partition("\n")[0]
    except OSError:
        return set()
    os.unlink(listed)
    return {word.replace("\\ ", " ").replace("\\#", "#").replace("$$", "$") for word in WORD.findall(rule)}


def wait_for_change(files: set[str], before: int) -> None:
    """Waits until one of the files changes, or has changed since a time."""
    known = {file: marks_of(file) for file in files}
    print(f"hippo-c: watching {len(files)} files", flush=True)
    if any(marks and marks[1] >= before for marks in known.values()):
        return
    while all(marks_of(file) == marks for file, marks in known.items()):
        time.sleep(SECONDS)
    changed = min(file for file, marks in known.items() if marks_of(file) != marks)
    print(f"hippo-c: {shown(os.path.relpath(changed))} has changed", flush=True)


def marks_of(file: str) -> tuple[int, int, int] | None:
    """What changes when a file does; nothing if it is not there."""
    try:
        state = os.stat(file)
    except OSError:
        return None
    return state.st_ino, state.st_mtime_ns, state.st_size
