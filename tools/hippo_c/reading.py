"""The files that hippo-c reads: those that the user names, and those that clang read, in the state in which it read them."""
from __future__ import annotations

import hashlib
import os
import re
import stat
from collections.abc import Iterable

from lowering.names import unescaped

from .trouble import Trouble

MOST_BYTES = 256 << 20
COMPILED = re.compile(
    r'^!\d+ = (?:distinct )?!DIFile\(filename: "([^"]*)", directory: "([^"]*)", checksumkind: CSK_MD5, checksum: "([0-9a-f]{32})"',
    re.M,
)


def text_of(path: str) -> str:
    """The text of a file that the user names, which may be a pipe."""
    try:
        with open(path, "rb") as file:
            content = file.read(MOST_BYTES + 1)
        if len(content) > MOST_BYTES:
            raise Trouble(f"{path}: more than {MOST_BYTES >> 20} MiB")
        return content.decode("utf-8")
    except UnicodeDecodeError:
        raise Trouble(f"{path}: not UTF-8 text") from None
    except OSError as error:
        raise Trouble(f"{path}: {error.strerror}") from None


def compiled_files(texts: Iterable[str]) -> dict[str, set[str]]:
    """The files that LLVM's texts with debug information come from: by their real paths, the MD5 digests of their contents.

    clang gives no digest to a file that only a `#line` names."""
    found: dict[str, set[str]] = {}
    for text in texts:
        for name, folder, digest in COMPILED.findall(text):
            path = os.path.realpath(os.path.join(unescaped(folder), unescaped(name)))
            found.setdefault(path, set()).add(digest)
    return found


def compiled_bytes(path: str, digests: set[str]) -> bytes:
    """The bytes of a regular file that has one of these digests; none of any other file."""
    try:
        if not digests or not stat.S_ISREG(os.stat(path).st_mode):
            return b""
        with open(os.open(path, os.O_RDONLY | os.O_NONBLOCK), "rb") as file:
            content = file.read(os.fstat(file.fileno()).st_size)
    except OSError:
        return b""
    return content if hashlib.md5(content, usedforsecurity=False).hexdigest() in digests else b""
