"""`hippo-c cc` and `hippo-c c++`: a compiler for a build, whose objects also have the bitcode of their files for `hippo-c check`.

The compiler is that of `HIPPO_CC` or `HIPPO_CXX`, or `cc` or `c++`. Its answer is the answer; bitcode that cannot be made is a line on
standard error, and the build goes on."""
from __future__ import annotations

import hashlib
import os
import shlex
import subprocess
import sys
import tempfile
from collections.abc import Iterator

from lowering.compile_commands import PATHS, taken
from lowering.languages import FLAGS, arguments_for, compiler, is_source
from lowering.objects import SECTION, record_of

from . import ends
from .running import TOOLS
from .trouble import Trouble

# The words that name the compilers, with the variables that name other ones.
KINDS = {"cc": "HIPPO_CC", "c++": "HIPPO_CXX"}
# Words after which another word stands that is no source, and words that ask for something else than an object.
WITH_WORD = (
    *PATHS,
    "-o",
    "-D",
    "-U",
    "-x",
    "-MF",
    "-MT",
    "-MQ",
    "-Xclang",
    "-Xlinker",
    "-Xassembler",
    "-arch",
    "-z",
    "-T",
)
NO_OBJECT = ("-E", "-S", "-M", "-MM", "-fsyntax-only", "-emit-llvm")


def compile_as(kind: str, words: list[str]) -> int:
    """Compiles as the words say, and puts bitcode into the objects; the exit code of the compiler."""
    command = shlex.split(os.environ.get(KINDS[kind], "")) or [kind]
    try:
        process = ends.started([*command, *words, "-idirafter", TOOLS])
    except OSError as error:
        raise Trouble(f"{command[0]}: {error.strerror}", f"{KINDS[kind]} names the compiler") from None
    code = process.wait()
    ends.state.processes.discard(process)
    if code:
        return code if code > 0 else 128 - code
    for source, made in objects_of(words):
        why = embed(source, made, words)
        if why:
            ends.complain(f"hippo-c {kind}: {made} has no bitcode: {why}")
    return 0


def objects_of(words: list[str]) -> Iterator[tuple[str, str]]:
    """The sources of a command that makes objects, each with its object."""
    if "-c" not in words or any(word in NO_OBJECT for word in words):
        return
    sources, output, before = [], "", ""
    for word in words:
        if before == "-o":
            output = word
        elif word.startswith("-o") and word != "-o":
            output = word[2:]
        elif before not in WITH_WORD and not word.startswith("-") and is_source(word):
            sources.append(word)
        before = word if before not in WITH_WORD else ""
    for source in sources:
        yield source, output or os.path.splitext(os.path.basename(source))[0] + ".o"


def embed(source: str, made: str, words: list[str]) -> str:
    """Puts the bitcode of a source into an object; why it could not, or nothing."""
    read = taken(words, os.getcwd())
    name, *flags = compiler(source)
    form = ["-c" if flag == "-S" else flag for flag in FLAGS]
    command = [name, "-O1", *form, *flags, "-w", f"-I{TOOLS}", *arguments_for(source, read)]
    command += ["-Xclang", "-disable-llvm-passes", "-o", "-", source]
    try:
        compiled = subprocess.run(command, stdin=subprocess.DEVNULL, capture_output=True, check=False)
        if compiled.returncode:
            said = compiled.stderr.decode("utf-8", "replace").splitlines()
            return f"{name} says: " + next(
                (line for line in said if ": error: " in line), f"it ended with {compiled.returncode}"
            )
        with open(source, "rb") as file:
            digest = hashlib.sha256(file.read()).hexdigest()
        with tempfile.NamedTemporaryFile(prefix="hippo-c-") as record:
            record.write(record_of(source, os.getcwd(), read, digest, compiled.stdout))
            record.flush()
            put = ["llvm-objcopy-19", f"--remove-section={SECTION}", f"--add-section={SECTION}={record.name}"]
            put += [f"--set-section-flags={SECTION}=exclude,readonly", made]
            copied = subprocess.run(put, stdin=subprocess.DEVNULL, capture_output=True, check=False)
    except FileNotFoundError as error:
        return f"{error.filename} is not there (Debian: apt-get install clang-19 llvm-19)"
    except OSError as error:
        return f"{error.filename or source}: {error.strerror}"
    said = copied.stderr.decode("utf-8", "replace").strip().splitlines()
    return said[0] if copied.returncode and said else "" if not copied.returncode else "llvm-objcopy-19 failed"


def is_wrapper(words: list[str]) -> bool:
    """Whether the command line is that of a compiler."""
    return bool(words) and words[0] in KINDS


def main(words: list[str]) -> int:
    """Carries out the command line of a compiler."""
    if len(words) == 1:
        print(f"usage: hippo-c {words[0]} ARGUMENTS OF THE COMPILER", file=sys.stderr)
        return 2
    return compile_as(words[0], words[1:])
