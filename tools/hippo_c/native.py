"""Builds the engine of a program, which runs it natively, and runs the engine's commands.

The engine is trusted for nothing: what it finds is shown only after hippo has confirmed it."""
from __future__ import annotations

import contextlib
import glob
import hashlib
import os
import shutil
import stat
import tempfile
from collections.abc import Callable

from . import running
from .instrument import Instrumented, check_names
from .program import Program
from .running import TOOLS, Ended, finish, start
from .trouble import Trouble
from .writing import whole_file

SOURCES = os.path.join(TOOLS, "explore")
COMPILE = ["clang-19", "-O2", "-g0", "-std=gnu17", "-target", "x86_64-pc-linux-gnu", "-fno-pic"]
LINK = ["clang-19", "-target", "x86_64-pc-linux-gnu", "-no-pie", "-Wl,-Ttext-segment=0x20000000"]
LLC = ["llc-19", "-O1", "-relocation-model=static", "-filetype=obj"]
MOST_KEPT = 64
# The engine's exit code where it cannot go on.
BROKEN = 3


def cache_folder() -> str:
    """The folder in which engines are kept from one use to the next."""
    base = os.environ.get("XDG_CACHE_HOME") or os.path.join(os.path.expanduser("~"), ".cache")
    return os.path.join(base, "hippo-c", "engines")


def digest_of(*texts: bytes) -> str:
    """What identifies these texts."""
    found = hashlib.sha256()
    for text in texts:
        found.update(len(text).to_bytes(8, "little") + text)
    return found.hexdigest()[:32]


def sources() -> list[str]:
    """The C files of the engine, without the hooks, which are compiled into each program."""
    return sorted(set(glob.glob(f"{SOURCES}/*.c")) - {f"{SOURCES}/hooks.c"})


def source_digest() -> str:
    """What identifies the engine's own sources."""
    texts = []
    for path in sorted(glob.glob(f"{SOURCES}/*.[ch]")):
        with open(path, "rb") as file:
            texts.append(file.read())
    return digest_of(*texts)


def tool(words: list[str], given: bytes = b"") -> bytes:
    """Runs a tool of clang or LLVM, and returns its output."""
    ran = running.tool(words, given)
    if ran.returncode:
        first = ran.stderr.decode("utf-8", "replace").strip().split("\n")[0]
        raise Trouble(f"the engine of explore is not built: {words[0]}: {first}")
    return ran.stdout


def kept(name: str, folder: str, make: Callable[[str], None]) -> str:
    """The path of a file that the cache keeps; `make(path)` writes it if it is not there.

    The path is in `folder` if the cache cannot be written."""
    path, own = os.path.join(cache_folder(), name), os.path.join(folder, name)
    if os.path.exists(path):
        with contextlib.suppress(OSError):
            os.utime(path)
        return path
    make(own)
    try:
        os.makedirs(cache_folder(), exist_ok=True)
        with whole_file(path, mode=stat.S_IMODE(os.stat(own).st_mode)) as copy, open(own, "rb") as made:
            shutil.copyfileobj(made, copy)
    except (OSError, Trouble):
        return own
    forget_old()
    return path


def forget_old() -> None:
    """Removes what has not been used for the longest time, so that the cache stays small."""
    with contextlib.suppress(OSError):
        paths = sorted(glob.glob(f"{cache_folder()}/*"), key=os.path.getmtime, reverse=True)
        for path in paths[MOST_KEPT:]:
            os.unlink(path)


class Engine:
    """The engine of one program; its files are in a folder."""

    def __init__(self, program: Program, folder: str, recovers: tuple[str, ...] = ()) -> None:
        check_names(program)
        self.folder = folder
        self.instrumented = Instrumented(program, recovers)
        self.sites = self.instrumented.sites
        text = self.instrumented.text.encode("latin-1")
        self.path = kept(
            f"{digest_of(text, source_digest().encode())}.engine", folder, lambda path: self.build(text, path)
        )

    def build(self, text: bytes, path: str) -> None:
        """Compiles the instrumented text with the hooks inlined, and links it with the engine."""
        volatile, region = self.instrumented.sizes
        program, hooks, object_ = (
            os.path.join(self.folder, name) for name in ("instrumented.ll", "hooks.bc", "instrumented.o")
        )
        with whole_file(program) as file:
            file.write(text)
        sizes = [
            f"-DVOLATILE_SIZE={volatile}ull",
            f"-DREGION_SIZE={region}ull",
            f"-DEDGE_MASK={self.instrumented.edges - 1}u",
        ]
        tool([*COMPILE, *sizes, "-emit-llvm", "-c", "-o", hooks, f"{SOURCES}/hooks.c"])
        linked = tool(["llvm-link-19", program, hooks, "-o", "-"])
        inlined = tool(["opt-19", "-passes=always-inline", "-o", "-"], linked)
        tool([*LLC, "-o", object_, "-"], inlined)
        tool([*LINK, "-o", path, object_, kept(f"{source_digest()}.o", self.folder, self.compile)])

    def compile(self, path: str) -> None:
        """Compiles the engine's own sources into one object file."""
        parts = []
        for source in sources():
            parts.append(os.path.join(self.folder, f"{os.path.basename(source)}.o"))
            tool([*COMPILE, "-c", "-o", parts[-1], source])
        tool(["clang-19", "-target", "x86_64-pc-linux-gnu", "-nostdlib", "-r", "-o", path, *parts])

    def words(self, command: str, numbers: list[int], *options: str) -> list[str]:
        """The words of a command of the engine on an input."""
        given = os.path.join(self.folder, "engine.in")
        with open(given, "w", encoding="ascii") as file:
            file.write(" ".join(map(str, numbers)) + "\n")
        return [self.path, command, "--input", given, *options]

    def record(self, numbers: list[int], path: str, *options: str) -> Ended:
        """Writes the trace of the run on these numbers into a file, as `hippo record` does."""
        with whole_file(path) as file:
            return accepted(finish(start(self.words("trace", numbers, *options), stdout=file)))

    def check(self, numbers: list[int], *options: str) -> list[str]:
        """The lines that `hippo check` writes for the run on these numbers."""
        with tempfile.TemporaryFile() as out:
            accepted(finish(start(self.words("check", numbers, *options), stdout=out)))
            out.seek(0)
            return [self.named(line) for line in out.read().decode("ascii").split("\n") if line]

    def named(self, line: str) -> str:
        """A line of a report with the names of sites in place of their numbers."""
        words = line.split(" ")
        first = words.index("flush", 2) if "flush" in words[2:] else words.index("path")
        return " ".join(
            [*words[:first], *(word if not word.isdigit() else show(self.sites[int(word)]) for word in words[first:])]
        )


def show(site: tuple[str, str, int]) -> str:
    """A site as hippo writes it."""
    return f"@{site[0]}:{site[1]}:{site[2]}"


def accepted(ended: Ended) -> Ended:
    """Refuses an ending of the engine that is no answer."""
    if ended.code in (0, 1):
        return ended
    said = ended.notes.strip().split("\n")[-1] or f"the engine ended with {ended.code}"
    raise Trouble(f"a defect of explore: {said}")
