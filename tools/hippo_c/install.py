"""The command install: program, tools, header, pages and completions under one folder."""
import argparse
import os
import shutil
import stat

from . import completions, running
from .progress import Progress
from .trouble import Trouble
from .writing import whole_file

WRAPPER = """#!/bin/sh
here=$(dirname "$(readlink -f "$0")")
exec python3 -B "$here/../lib/hippo/{name}" "$@"
"""
# The program itself knows its commands alone.
PROGRAM_WRAPPER = """#!/bin/sh
here=$(dirname "$(readlink -f "$0")")
case ${1-} in --help | --version) exec cat "$here/../lib/hippo/about/${1#--}" ;; esac
exec "$here/../lib/hippo/hippo" "$@"
"""
MANUAL = ("hippo.1", "hippo-c.1", "hippo-lower.1")
ABOUT = ("help", "version")
TOOLS = ("hippo-c", "lower", "hippo.h", "external_functions.c")
SCRIPTS = ("hippo-c", "lower")
FOLDERS = ("lowering", "hippo_c", "runtime", "headers", "build", "explore")
# Where the pages and the examples are in an installation.
PAGES = "share/doc/hippo"


def add_options(command: argparse.ArgumentParser) -> None:
    """The words of install."""
    command.add_argument("prefix", metavar="PREFIX", help="the folder, such as /usr/local")
    command.add_argument("--program", metavar="FILE", help="the built hippo; otherwise the one that hippo-c runs")


def install(options: argparse.Namespace, parser: argparse.ArgumentParser) -> int:
    """Copies everything, and replaces existing files."""
    program = options.program or running.hippo_program()
    if not is_program(program):
        raise Trouble(f"{program} is not a built program", "build it by ./hippo --build, or name it by --program")
    prefix = os.path.abspath(options.prefix)
    if os.path.realpath(f"{prefix}/lib/hippo") == os.path.realpath(running.TOOLS):
        raise Trouble(
            f"{prefix} is the installation that runs this command",
            "name another folder, or install from the repository",
        )
    try:
        put(program, f"{prefix}/lib/hippo/hippo", executable=True)
        write(f"{prefix}/bin/hippo", PROGRAM_WRAPPER, executable=True)
        write_about(prefix)
        for name in ("hippo-c", "lower"):
            write(
                f'{prefix}/bin/{"hippo-lower" if name == "lower" else name}', WRAPPER.format(name=name), executable=True
            )
        copy_tools(prefix)
        copy_pages(prefix)
        for page in MANUAL:
            put(os.path.join(manual_folder(), page), f"{prefix}/share/man/man1/{page}")
        for path, text in completions.files(parser).items():
            write(f"{prefix}/share/{path}", text)
    except OSError as error:
        raise Trouble(f"{error.filename or prefix}: {error.strerror or error}") from None
    Progress().wipe()
    print(f"installed: hippo, hippo-c and hippo-lower in {prefix}/bin")
    print(f"the manual is {prefix}/{PAGES}/docs/HIPPO_C.md, and {prefix}/{PAGES}/examples has programs to begin with")
    if f"{prefix}/bin" not in os.environ.get("PATH", "").split(os.pathsep):
        print(f'not yet in the PATH: export PATH="{prefix}/bin:$PATH"')
    return 0


def is_program(path: str) -> bool:
    """Whether a file is a program for the processor, not a script that builds one."""
    try:
        with open(path, "rb") as file:
            return file.read(4) == b"\x7fELF"
    except OSError as error:
        raise Trouble(f"{path}: {error.strerror}") from None


def copy_tools(prefix: str) -> None:
    """Copies hippo-c, the lowering, the runtime and the manual pages, without files of an earlier version."""
    library = f"{prefix}/lib/hippo"
    for name in TOOLS:
        put(os.path.join(running.TOOLS, name), f"{library}/{name}", executable=name in SCRIPTS)
    put(os.path.join(running.TOOLS, "hippo.h"), f"{prefix}/include/hippo.h")
    for folder in FOLDERS:
        shutil.rmtree(f"{library}/{folder}", ignore_errors=True)
        shutil.copytree(
            os.path.join(running.TOOLS, folder), f"{library}/{folder}", ignore=shutil.ignore_patterns("__pycache__")
        )
    for page in MANUAL:
        put(os.path.join(manual_folder(), page), f"{library}/man/{page}")


def copy_pages(prefix: str) -> None:
    """Copies the pages for users and the examples, without files of an earlier version."""
    top = os.path.dirname(running.TOOLS)
    source = top if os.path.isdir(os.path.join(top, "docs")) else os.path.join(os.path.dirname(top), PAGES)
    shutil.rmtree(f"{prefix}/{PAGES}", ignore_errors=True)
    for folder in ("docs", "examples"):
        shutil.copytree(
            os.path.join(source, folder),
            f"{prefix}/{PAGES}/{folder}",
            ignore=shutil.ignore_patterns("man", "__pycache__"),
        )
    put(os.path.join(source, "README.md"), f"{prefix}/{PAGES}/README.md")


def write_about(prefix: str) -> None:
    """Writes what `hippo --help` and `hippo --version` answer: the words of the repository's launcher, or of this installation."""
    launcher = os.path.join(os.path.dirname(running.TOOLS), "hippo")
    for name in ABOUT:
        kept = os.path.join(running.TOOLS, "about", name)
        if os.path.isfile(kept):
            put(kept, f"{prefix}/lib/hippo/about/{name}")
            continue
        ran = running.tool([launcher, f"--{name}"])
        if ran.returncode:
            raise Trouble(f"{launcher} --{name} ends with {ran.returncode}")
        write(f"{prefix}/lib/hippo/about/{name}", ran.stdout)


def manual_folder() -> str:
    """Where the manual pages stand: in the repository, or in an installation."""
    folder = os.path.join(os.path.dirname(running.TOOLS), "docs", "man")
    return folder if os.path.isdir(folder) else os.path.join(running.TOOLS, "man")


def put(source: str, target: str, executable: bool = False) -> None:
    """Copies a file."""
    with open(source, "rb") as file:
        write(target, file.read(), executable)


def write(target: str, content: str | bytes, executable: bool = False) -> None:
    """Writes a file, in a folder that it makes if there is none."""
    os.makedirs(os.path.dirname(target), exist_ok=True)
    with whole_file(target) as file:
        file.write(content.encode() if isinstance(content, str) else content)
    if executable:
        os.chmod(target, os.stat(target).st_mode | stat.S_IXUSR | stat.S_IXGRP | stat.S_IXOTH)
