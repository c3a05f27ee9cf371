"""A native program that starts from a crash image, for gdb and rr.

Persistent globals lie where hippo has them, so pointers in the image are right. A constructor that runs before all others copies the
image there; then the program starts as always."""
from __future__ import annotations

import argparse
import os
import shlex
import shutil
import tempfile
from typing import NamedTuple

from lowering.languages import arguments_for, is_cpp

from . import ends, running
from .clang import clang_for
from .diagnostics import Printer
from .program import REGION_BASE, Global
from .session import Session
from .trouble import Trouble
from .writing import whole_file

NATIVE = ("-g", "-O0", "-no-pie", "-mcmodel=large", f"-Wl,--section-start=.pm={REGION_BASE:#x}")
LOADER = """#include <stdio.h>
#include <stdlib.h>
static const struct { unsigned long address, offset, size; } parts[] = {PARTS};
__attribute__((constructor(101))) static void hippo_load_image(void) {
    FILE *image = fopen(PATH, "rb");
    for (unsigned long i = 0; i < sizeof parts / sizeof parts[0]; i++)
        if (!image || fseek(image, (long)parts[i].offset, SEEK_SET) || fread((void *)parts[i].address, 1, parts[i].size, image) != parts[i].size) {
            fputs("the crash image cannot be read\\n", stderr);
            exit(2);
        }
    fclose(image);
}
"""
SCRIPT = """set confirm off
set breakpoint pending on
break main
run {arguments} <{numbers}
echo Persistent memory is what the power cut left. `continue` runs the program from there.\\n
"""


class Part(NamedTuple):
    """A persistent global in the native program and in the image."""

    item: Global
    address: int


class Native(NamedTuple):
    """The native program, the file of its input, the script for gdb, and the words of its command line."""

    program: str
    numbers: str
    script: str
    arguments: str


def add_options(command: argparse.ArgumentParser) -> None:
    """The options that make a native program."""
    command.add_argument(
        "--debug", metavar="FOLDER", help="write the image of --pick and a native program that starts from it, for gdb"
    )
    command.add_argument("--rr", action="store_true", help="record the native program of --debug with rr")


def prepare(options: argparse.Namespace) -> None:
    """Makes the folder, before anything is printed; refuses words that do not fit together."""
    if not options.debug and not options.rr:
        return
    if not options.debug or options.picks is None or options.then:
        raise Trouble(
            "--debug needs one image, and --rr needs --debug", "give --entries N --pick LINE:UPTO.. --debug FOLDER"
        )
    if options.rr and shutil.which("rr") is None:
        raise Trouble("rr is not installed", "Debian: apt-get install rr")
    try:
        os.makedirs(options.debug, exist_ok=True)
    except OSError as error:
        raise Trouble(f"--debug {options.debug}: {error.strerror}") from None


def write_native(options: argparse.Namespace, session: Session, image: bytearray, printer: Printer) -> None:
    """Writes the image, the native program and a script for gdb into the folder, and says how to use them."""
    folder = os.path.abspath(options.debug)
    program, path, numbers, script = (
        os.path.join(folder, name) for name in ("program", "image", "numbers", "debug.gdb")
    )
    write(path, bytes(image))
    write(numbers, "".join(f"{number}\n" for number in session.request.inputs[0]).encode())
    arguments = shlex.join(session.request.arguments[1:])
    write(script, SCRIPT.format(arguments=arguments, numbers=shlex.quote(numbers)).encode("utf-8", "surrogateescape"))
    session.progress.say("building the native program")
    build(session, program, [])
    found = parts_of(session, program)
    loader = os.path.join(folder, "load_image.c")
    write(loader, loader_text(found, path).encode("utf-8", "surrogateescape"))
    build(session, program, [loader])
    session.progress.wipe()
    warn_of_moved(printer, found)
    say(options, printer, Native(program, numbers, script, arguments))


def write(path: str, content: bytes) -> None:
    """Writes a file, which gets its name when it is complete."""
    with whole_file(path) as file:
        file.write(content)


def build(session: Session, program: str, more: list[str]) -> None:
    """Builds the files of a session, each by the compiler of its language, with the persistent globals at hippo's base."""
    request = session.request
    if request.objects.changed:
        raise Trouble(request.objects.changed[0], "the native program is built from the sources")
    own = [*request.sources(), *(file for file in request.files if file.endswith(".ll"))]
    given = {file: request.clang_of(file) for file in own}
    files = [*own, os.path.join(running.TOOLS, "external_functions.c"), *more]
    with tempfile.TemporaryDirectory(prefix="hippo-c-") as folder:
        objects = [os.path.join(folder, f"{number}.o") for number in range(len(files))]
        for file, target in zip(files, objects):
            words = given.get(file, arguments_for(file, request.clang))
            run([*clang_for(file), *NATIVE, f"-I{running.TOOLS}", *words, "-c", file, "-o", target])
        last = next(filter(is_cpp, files), files[0])
        run([*clang_for(last), *NATIVE, *arguments_for(last, request.clang), *objects, "-o", program])


def run(command: list[str]) -> None:
    """Runs clang for the native program."""
    ran = running.tool(command)
    if ran.returncode:
        raise Trouble(
            f'the native program is not built:\n{ran.stderr.decode("utf-8", "replace").rstrip()}',
            "libraries and arguments of the linker stand after --",
        )


def parts_of(session: Session, program: str) -> list[Part]:
    """Where the native program has each persistent global of the lowered one."""
    ran = running.tool(["llvm-nm-19", "--format=posix", program])
    if ran.returncode:
        raise Trouble(f'llvm-nm-19: {ran.stderr.decode("utf-8", "replace").strip()}')
    rows = [line.split(" ") for line in ran.stdout.decode("latin-1").splitlines()]
    native: dict[str, list[int]] = {}
    for row in rows:
        if len(row) > 2 and row[1] in "dDbB":
            native.setdefault(row[0], []).append(int(row[2], 16))
    found = []
    for item in session.program.persistent:
        name = item.name.split(".")[0] if item.name not in native else item.name
        addresses = native.get(name, [])
        if item.address in addresses:
            found.append(Part(item, item.address))
        elif len(addresses) == 1:
            found.append(Part(item, addresses[0]))
        elif item.size:
            raise Trouble(
                f"the persistent global {item.name} is not in the native program, or not the only one of its name",
                "a pool becomes a file by hippo-c pool",
            )
    return found


def loader_text(parts: list[Part], path: str) -> str:
    """The C of the constructor that loads the image."""
    quoted = "".join(
        chr(byte) if 32 <= byte < 127 and byte not in b'"\\' else f"\\{byte:03o}" for byte in os.fsencode(path)
    )
    rows = ", ".join(
        f"{{{part.address}u, {part.item.address - REGION_BASE}u, {part.item.size}u}}"
        for part in parts
        if part.item.size
    )
    return LOADER.replace("PARTS", rows or "{0, 0, 0}").replace("PATH", f'"{quoted}"')


def warn_of_moved(printer: Printer, parts: list[Part]) -> None:
    """A warning for each global that does not lie where hippo has it."""
    for part in parts:
        if part.address != part.item.address:
            printer.diagnostic(
                None,
                "warning",
                f"'{part.item.name}' lies at {part.address:#x} natively and at {part.item.address:#x} in hippo: "
                "pointers to it in the image are wrong",
            )


def say(options: argparse.Namespace, printer: Printer, native: Native) -> None:
    """How to run and to debug what was written; with `--rr`, records it."""
    words = " ".join(filter(None, [shlex.quote(native.program), native.arguments, f"<{shlex.quote(native.numbers)}"]))
    printer.line(f"written: {options.debug}, a native program that starts from this image")
    printer.line(f"  run it:   {words}")
    printer.line(f'  debug it: {shlex.join(["gdb", "-q", "-x", native.script, native.program])}')
    if options.rr:
        trace = os.path.join(os.path.dirname(native.program), "rr")
        printer.line(f'  replay it: {shlex.join(["rr", "replay", trace])}')
        printer.stream.flush()
        with open(native.numbers, "rb") as given:
            command = ["rr", "record", "-o", trace, native.program, *shlex.split(native.arguments)]
            ends.started(command, stdin=given).wait()
