"""The files that hippo-c writes. Each appears when it is complete; an output of the user's that is a device, a pipe or a link is written through."""
from __future__ import annotations

import contextlib
import os
import re
import shutil
import stat
import sys
import tempfile
from collections.abc import Iterator
from typing import IO, BinaryIO

from .trouble import Trouble

UMASK = os.umask(0o077)
os.umask(UMASK)
DESCRIPTOR = re.compile(r"/(?:dev|proc/self)/fd/([0-9]+)")
STREAMS = {"/dev/stdout": 1, "/dev/stderr": 2}
# This name of an output is that of standard output.
STANDARD_OUTPUT = "-"
LONGEST_PREFIX = 60


@contextlib.contextmanager
def whole_file(path: str, named: str = "", mode: int | None = None) -> Iterator[IO[bytes]]:
    """A binary file to write to; it gets its name when it is complete, and there is no file after a failure.

    What has the name, a link too, is replaced. A Trouble names the file `named`. Without a mode the permissions stay, or are those of
    a new file."""
    half = ""
    try:
        with new_file(path) as file:
            half = file.name
            yield file
            with contextlib.suppress(PermissionError):  # some file systems have no permissions
                os.fchmod(file.fileno(), mode_of(path) if mode is None else mode)
        os.replace(half, path)
    except OSError as error:
        raise Trouble(f"{named or path}: {error.strerror}") from None
    finally:
        if half:
            with contextlib.suppress(OSError):
                os.unlink(half)


def new_file(path: str) -> IO[bytes]:
    """A file beside a path that nothing else has: its name is chosen at random, and a link of this name is not followed."""
    folder, name = os.path.split(path)
    made: IO[bytes] = tempfile.NamedTemporaryFile(
        prefix=f"{name[:LONGEST_PREFIX]}.", suffix=".part", dir=folder or ".", delete=False
    )
    return made


def mode_of(path: str) -> int:
    """The permissions of a file that is written: those that it has, or those of a new file."""
    with contextlib.suppress(OSError):
        found = os.lstat(path)
        if stat.S_ISREG(found.st_mode):
            return stat.S_IMODE(found.st_mode) & 0o777
    return 0o666 & ~UMASK


@contextlib.contextmanager
def output_file(path: str) -> Iterator[IO[bytes]]:
    """An output that the user named, as a binary file to write to.

    A regular file gets its content when that is complete. The target of a link is written, and the link stays. A device, a pipe and an
    open descriptor (`/dev/stdout`) get the content at the end."""
    if descriptor_of(path) is None and is_plain(path):
        with whole_file(os.path.realpath(path), path) as file:
            yield file
        return
    with tempfile.TemporaryFile() as file:
        yield file
        file.seek(0)
        try:
            with opened(path) as out:
                shutil.copyfileobj(file, out)
        except OSError as error:
            raise Trouble(f"{path}: {error.strerror}") from None


def descriptor_of(path: str) -> int | None:
    """The number of the open descriptor that a path names."""
    found = DESCRIPTOR.fullmatch(path)
    return int(found[1]) if found else STREAMS.get(path)


def is_plain(path: str) -> bool:
    """Whether a path names a regular file, or nothing yet."""
    try:
        return stat.S_ISREG(os.stat(path).st_mode)
    except FileNotFoundError:
        return True
    except OSError as error:
        raise Trouble(f"{path}: {error.strerror}") from None


def opened(path: str) -> BinaryIO:
    """A device, a pipe or an open descriptor, for writing."""
    number = descriptor_of(path)
    if number is None:
        return open(os.open(path, os.O_WRONLY | os.O_NOCTTY), "wb")
    if number in (1, 2):
        (sys.stdout if number == 1 else sys.stderr).flush()
    return open(os.dup(number), "wb")
