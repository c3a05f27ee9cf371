"""The files that the command writes: never one that it reads, and never half of one."""
from __future__ import annotations

import os
import re
import stat
from typing import TYPE_CHECKING

from .commands import USAGE, WRITE_FAULT, Failure
from .ends import STANDARD_OUTPUT, WORK

if TYPE_CHECKING:
    from .options import Options

# Endings of files that programmers write, or that clang makes of them.
OF_SOURCES = (".c", ".h", ".cc", ".cpp", ".cxx", ".c++", ".C", ".hh", ".hpp", ".hxx", ".s", ".S", ".bc", ".o")
OF_DESCRIPTORS = re.compile(r"/dev/(?:fd/|std)|/proc/")


def check_outputs(options: Options) -> None:
    """Refuses an output that is an input, another output, a folder, or by its name a source."""
    inputs = [
        *options.files,
        *(pool.content for pool in options.pools if pool.content),
        *filter(None, [options.compile_commands]),
    ]
    if not options.target and (file := next((file for file in inputs if is_written(file)), "")):
        raise Failure(f"{file} is read, and is the standard output, too", USAGE)
    if options.target:
        check_output("-o", options.target, inputs, OF_SOURCES)
    for option, file, of_sources in (
        ("--requests", options.requests, OF_SOURCES),
        ("--reads", options.reads, OF_SOURCES),
        ("--public", options.public, (*OF_SOURCES, ".ll")),
    ):
        if file:
            check_output(option, file, inputs, of_sources)
            if is_same(file, options.target) if options.target else is_written(file):
                raise Failure(f"{option} {file}: the text goes to this file, too", USAGE)
            inputs.append(file)


def check_output(option: str, file: str, inputs: list[str], of_sources: tuple[str, ...]) -> None:
    """Refuses the file of an option."""
    if os.path.isdir(file):
        raise Failure(f"{option} {file}: this is a folder", USAGE)
    if given := next((given for given in inputs if is_same(given, file)), ""):
        raise Failure(f"{option} {file}: this file is read, as {given}", USAGE)
    if file.endswith(of_sources):
        raise Failure(f"{option} {file}: by its name this is a source; give the output another name", USAGE)


def is_same(first: str, second: str) -> bool:
    """Whether two names are those of one file, which may not exist yet."""
    try:
        return os.path.samefile(first, second)
    except OSError:
        return os.path.realpath(first) == os.path.realpath(second)


def is_written(file: str) -> bool:
    """Whether a file or a pipe is the one to which standard output goes."""
    try:
        found, written = os.stat(file), os.fstat(STANDARD_OUTPUT)
    except OSError:
        return False
    return not stat.S_ISCHR(found.st_mode) and os.path.samestat(found, written)


def write_whole(path: str, text: bytes) -> None:
    """Writes a file, which has its old contents until it has all of the new ones. What is no regular file, such as a device or a
    FIFO, is written to; the file that a link names is written, and not the link."""
    try:
        if is_written_to(path):
            with open(path, "ab") as out:
                out.write(text)
            return
        real = os.path.realpath(path)
        number, made = WORK.file_beside(real)
        with open(number, "wb") as out:
            out.write(text)
        os.chmod(made, mode_of(real))
        os.replace(made, real)
    except OSError as error:
        raise Failure(f"write fault: {path}: {error.strerror}", WRITE_FAULT) from None


def is_written_to(path: str) -> bool:
    """Whether a file is written to and not replaced: it is no regular file, or a descriptor of a process has it."""
    real = os.path.realpath(path)
    return os.path.exists(real) and not os.path.isfile(real) or OF_DESCRIPTORS.match(path) is not None


def mode_of(path: str) -> int:
    """The permissions of a file; those of a new one if there is none."""
    try:
        return stat.S_IMODE(os.stat(path).st_mode)
    except OSError:
        mask = os.umask(0)
        os.umask(mask)
        return 0o666 & ~mask
