"""Objects and archives of a build with `hippo-c cc`: the section of an object has the bitcode of its file, before LLVM's passes, and how it was compiled."""
from __future__ import annotations

import json
import os
import stat
import struct
from collections.abc import Iterator
from typing import Any, NamedTuple

from .commands import NO_FILE, READ_FAULT, REFUSED, Failure

SECTION = ".hippo"
ELF, ARCHIVE, THIN = b"\x7fELF", b"!<arch>\n", b"!<thin>\n"
MAGIC = b"hippo bitcode 1\n"
HEADER_SIZE, END_OF_HEADER = 60, b"`\n"
# What an archive has besides its members: the table of symbols.
SYMBOLS = ("/", "/SYM64/", "__.SYMDEF")


class Unit(NamedTuple):
    """The file that a compiler made an object of: the name of the object for messages, the source, the folder of the command, the arguments that
    say how clang reads it, the digest of the source, and the bitcode."""

    name: str
    source: str
    folder: str
    words: list[str]
    digest: str
    bitcode: bytes


def is_object(path: str) -> bool:
    """Whether a file is an object or an archive. A pipe is none: what is read of it is gone."""
    try:
        if not stat.S_ISREG(os.stat(path).st_mode):
            return False
        with open(path, "rb") as file:
            return file.read(8).startswith((ELF, ARCHIVE, THIN))
    except OSError:
        return False


def record_of(source: str, folder: str, words: list[str], digest: str, bitcode: bytes) -> bytes:
    """The content of the section of an object. `ld -r` puts several of them one after another."""
    head = {"source": source, "folder": folder, "words": words, "digest": digest, "size": len(bitcode)}
    return MAGIC + json.dumps(head).encode("ascii") + b"\n" + bitcode


def units_of(path: str) -> list[Unit]:
    """The units of an object or an archive; one without bitcode is refused."""
    found: list[Unit] = []
    for name, content in contents_of(path):
        units = list(units_in(name, section_of(name, content)))
        if not units:
            raise Failure(f"{name}: it has no bitcode: compile it with CC='hippo-c cc'", REFUSED)
        found += units
    return found


def files_of(path: str) -> list[str]:
    """The files that are read for an object or an archive."""
    content = content_of(path)
    return [path, *(member for member, _ in members_of(path, content))] if content.startswith(THIN) else [path]


def contents_of(path: str) -> Iterator[tuple[str, bytes]]:
    """The objects of a file, each with its name for messages."""
    content = content_of(path)
    if content.startswith(ELF):
        yield path, content
        return
    is_thin = content.startswith(THIN)
    for name, member in members_of(path, content):
        if is_thin:
            member = content_of(name)
        if member.startswith(ELF):
            yield name if is_thin else f"{path}({name})", member


def content_of(path: str) -> bytes:
    """The bytes of a file."""
    try:
        with open(path, "rb") as file:
            return file.read()
    except FileNotFoundError:
        raise Failure(f"no file: {path}", NO_FILE) from None
    except OSError as error:
        raise Failure(f"read fault: {path}: {error.strerror}", READ_FAULT) from None


def members_of(path: str, content: bytes) -> Iterator[tuple[str, bytes]]:
    """The members of an archive; those of a thin one are files beside it, and have no content here."""
    is_thin, place, names = content.startswith(THIN), len(ARCHIVE), b""
    while place + HEADER_SIZE <= len(content):
        header = content[place : place + HEADER_SIZE]
        if not header.endswith(END_OF_HEADER) or not header[48:58].strip().isdigit():
            raise Failure(f"{path}: a damaged archive", REFUSED)
        size, name = int(header[48:58]), header[:16].decode("latin-1").rstrip()
        place += HEADER_SIZE
        has_content = not is_thin or name in ("//", *SYMBOLS)
        member = content[place : place + size] if has_content else b""
        place += (size + size % 2) if has_content else 0
        if name == "//":
            names = member
        elif name not in SYMBOLS:
            full = long_name(names, name)
            yield os.path.normpath(os.path.join(os.path.dirname(path), full)) if is_thin else full, member


def long_name(names: bytes, name: str) -> str:
    """The name of a member, which may stand in the table of long names."""
    if name.startswith("/") and name[1:].isdigit():
        return os.fsdecode(names[int(name[1:]) :].partition(b"/\n")[0])
    return name.rstrip("/")


def section_of(name: str, content: bytes) -> bytes:
    """The bytes of hippo's section of an object; none if it has no such section."""
    try:
        if content[4:6] != b"\x02\x01":
            raise Failure(f"{name}: an object for another processor than x86-64", REFUSED)
        start, entry, count, table = (
            *struct.unpack_from("<Q", content, 0x28),
            *struct.unpack_from("<HHH", content, 0x3A),
        )
        heads = [struct.unpack_from("<IIQQQQII", content, start + number * entry) for number in range(max(count, 1))]
        if not count:  # more sections than the number has room for
            table = heads[0][6] if table == 0xFFFF else table
            heads = [struct.unpack_from("<IIQQQQII", content, start + number * entry) for number in range(heads[0][5])]
        names = heads[table][4]
        for head in heads:
            if content[names + head[0] :].startswith(SECTION.encode() + b"\0"):
                return content[head[4] : head[4] + head[5]]
    except (struct.error, IndexError, OverflowError):
        raise Failure(f"{name}: a damaged object", REFUSED) from None
    return b""


def units_in(name: str, section: bytes) -> Iterator[Unit]:
    """The units of a section."""
    place = 0
    while section.startswith(MAGIC, place):
        end = section.find(b"\n", place + len(MAGIC))
        try:
            head: dict[str, Any] = json.loads(section[place + len(MAGIC) : end])
            place = end + 1 + head["size"]
            if end < 0 or place > len(section):
                raise ValueError
            yield Unit(name, head["source"], head["folder"], head["words"], head["digest"], section[end + 1 : place])
        except (ValueError, KeyError, TypeError):
            raise Failure(f"{name}: its bitcode is damaged", REFUSED) from None
