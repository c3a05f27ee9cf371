"""The words of the command line of `lower`."""
from __future__ import annotations

import argparse
import os
import re
from dataclasses import dataclass, field
from typing import IO, Any, NamedTuple, NoReturn

from .commands import USAGE, Failure

USAGE_LINE = "lower [-O0|-O1|-O2|-O3|-Os] [OPTIONS] FILE... [--args WORD...] [-- CLANG-ARGUMENTS...]"
UNITS = {"": 1, "K": 1 << 10, "M": 1 << 20}


@dataclass
class Pool:
    """A file of persistent memory: its name, its size, and a file with its first bytes."""

    name: str
    size: int
    content: str = ""


@dataclass
class Options:
    """The options of the command line."""

    files: list[str]
    level: str = "-O1"
    mem2reg: bool = False
    heap: int | None = None
    heap_on_stack: int = 0
    pools: list[Pool] = field(default_factory=list)
    environment: list[str] = field(default_factory=list)
    output: str = ""
    time_from_input: bool = False
    file_calls: bool = False
    single_thread: bool = False
    lines: bool = False
    non_temporal: bool = False
    array_bound: int | None = None
    target: str = ""
    public: str = ""
    requests: str = ""
    reads: str = ""
    trap_unsupported: bool = False
    shares_arguments: bool = False
    compile_commands: str = ""
    cache: str = ""
    wrap: list[str] = field(default_factory=list)
    unaligned: bool = False
    args_from_input: bool = False
    arguments: list[str] | None = None
    clang: list[str] = field(default_factory=list)


class Help(Exception):
    """The command line asks for the help, which is the message."""


class Parser(argparse.ArgumentParser):
    """A parser whose errors have the exit code of a usage error."""

    def error(self, message: str) -> NoReturn:
        """Ends the command."""
        raise Failure(f"usage: {USAGE_LINE}: {message}", USAGE)

    def print_help(self, file: IO[str] | None = None) -> None:
        """Hands over the text of the help; argparse's own form ignores a fault of its output."""
        raise Help(self.format_help())


class ShowVersion(argparse.Action):
    """Answers the version."""

    def __init__(self, option_strings: list[str], dest: str, **_: Any) -> None:
        super().__init__(option_strings, dest, nargs=0, default=argparse.SUPPRESS, help="show the version")

    def __call__(self, *_: object) -> None:
        tools = os.path.dirname(os.path.dirname(os.path.abspath(__file__)))
        kept = os.path.join(tools, "about", "version")
        with open(
            kept if os.path.isfile(kept) else os.path.join(os.path.dirname(tools), "VERSION"), encoding="utf-8"
        ) as file:
            raise Help(f"lower {file.readline().split()[-1]}\n")


def parse(words: list[str], description: str) -> Options:
    """The options; what follows `--` goes to clang, what follows `--args` to the program."""
    words, clang = split(words, "--")
    words, arguments = split(words, "--args")
    levels = [word for word in words if re.fullmatch("-O[0123s]", word)]
    given = build_parser(description).parse_args([word for word in words if word not in levels])
    if given.args_from_input and arguments is not None:
        raise Failure(f"usage: {USAGE_LINE}: give one of --args and --args-from-input", USAGE)
    if word := next((word for word in clang or [] if word.startswith("-o")), ""):
        raise Failure(f"usage: {USAGE_LINE}: {word} for clang: the text goes to standard output", USAGE)
    if file := next((file for file in given.files if os.path.basename(file).startswith("@")), ""):
        raise Failure(f"{file}: a name that begins with @ is to clang a file of arguments", USAGE)
    return Options(**vars(given), level=(levels or ["-O1"])[-1], arguments=arguments, clang=clang or [])


def split(words: list[str], mark: str) -> tuple[list[str], list[str] | None]:
    """The words before a mark, and those after it; nothing instead of them if there is no mark."""
    if mark not in words:
        return words, None
    place = words.index(mark)
    return words[:place], words[place + 1 :]


def build_parser(description: str) -> Parser:
    """Each option, with its help."""
    parser = Parser(
        prog="lower", usage=USAGE_LINE, description=description, formatter_class=argparse.RawDescriptionHelpFormatter
    )
    parser.add_argument("--version", action=ShowVersion)
    add_options(parser)
    parser.add_argument(
        "-o", dest="target", metavar="FILE", default="", help="write the text to FILE, and not to standard output"
    )
    parser.add_argument(
        "--public",
        metavar="FILE",
        default="",
        help="write the names that other object files may use, for opt's -internalize-public-api-file",
    )
    parser.add_argument(
        "--requests",
        metavar="FILE",
        default="",
        help="if the program has requests to Valgrind, write a second text in which those of pmemcheck are noted",
    )
    parser.add_argument(
        "--reads",
        metavar="FILE",
        default="",
        help="write what the text was made from, by which hippo-c knows whether a kept text is that of the same files",
    )
    add_readings(parser)
    parser.add_argument("files", nargs="+", metavar="FILE")
    return parser


def add_readings(parser: argparse.ArgumentParser) -> None:
    """The options by which hippo-c calls this command."""
    parser.add_argument(
        "--trap-unsupported",
        action="store_true",
        help="a function with a part that has no form, or that no file defines, traps when it is called",
    )
    parser.add_argument(
        "--share-arguments",
        dest="shares_arguments",
        action="store_true",
        help="a C file that the compile_commands.json does not have gets the arguments that all files of it share",
    )
    parser.add_argument(
        "--lines", action="store_true", help="add a comment after each instruction, with its place in C"
    )


def add_options(parser: argparse.ArgumentParser, as_text: bool = False) -> None:
    """The options that say what a program becomes. As text they are only taken, to be handed on by `words_of`."""
    for option in OPTIONS:
        how: dict[str, Any] = {"help": option.help}
        if option.metavar:
            how["metavar"] = option.metavar
        elif as_text or not option.const:
            how["action"] = "store_true"
        if option.is_list:
            how["action"] = "append"
        if not as_text:
            how.update(option.read)
            if option.const:
                how.update(action="store_const", const=option.const)
        parser.add_argument(f"--{option.name}", **how)


def words_of(given: argparse.Namespace) -> list[str]:
    """The words that give the options again that were taken as text."""
    found: list[str] = []
    for option in OPTIONS:
        value = getattr(given, option.name.replace("-", "_"))
        if not option.metavar:
            found += [f"--{option.name}"] * bool(value)
        elif value is not None:
            found += [f"--{option.name}={text}" for text in (value if option.is_list else [value])]
    return found


def size(text: str) -> int:
    """A number of bytes, with K or M after it for 1,024 or 1,048,576 of them."""
    if not (read := re.fullmatch(r"([0-9]{1,9})([KM]?)", text)):
        raise argparse.ArgumentTypeError(f"{text!r} is not a size, such as 4096, 64K or 2M")
    return int(read[1]) * UNITS[read[2]]


def variable(text: str) -> str:
    """`NAME=VALUE`."""
    if not re.fullmatch(r"[^=]+=.*", text, re.S):
        raise argparse.ArgumentTypeError(f"{text!r} is not a variable, such as HOME=/root")
    return text


def pool(text: str) -> Pool:
    """`NAME=SIZE` or `NAME=SIZE,FILE`."""
    name, mark, rest = text.partition("=")
    bytes_, _, content = rest.partition(",")
    if not (name and mark):
        raise argparse.ArgumentTypeError(f"{text!r} is not a pool, such as data.pool=1M")
    return Pool(name, size(bytes_), content)


class Option(NamedTuple):
    """An option that says what a program becomes: a flag, or an option with a value. `read` is how its value is read."""

    name: str
    help: str
    metavar: str = ""
    is_list: bool = False
    const: str = ""
    read: dict[str, Any] = {}


OPTIONS = (
    Option("mem2reg", "keep locals in registers, after -O0"),
    Option("heap", "the size of the heap of malloc", "SIZE", read={"type": size}),
    Option(
        "heap-on-stack",
        "the size of a second part of the heap, in a block on the stack",
        "SIZE",
        read={"type": size, "default": 0},
    ),
    Option(
        "pool",
        "a file of persistent memory for pmem_map_file and similar calls; FILE has its initial bytes",
        "NAME=SIZE[,FILE]",
        True,
        read={"dest": "pools", "type": pool, "default": []},
    ),
    Option(
        "environment",
        "a variable of the environment, for getenv and the third parameter of main",
        "NAME=VALUE",
        True,
        read={"type": variable, "default": []},
    ),
    Option(
        "ignore-output",
        "calls of text output return their result, and write nothing",
        const="ignore",
        read={"dest": "output", "default": ""},
    ),
    Option(
        "print-numbers",
        "calls of text output print their integers by print_i64, and nothing else",
        const="print",
        read={"dest": "output", "default": ""},
    ),
    Option("time-from-input", "calls for the time read the next number of the input"),
    Option("file-calls", "open, mmap, msync and similar calls work on the pools"),
    Option("single-thread", "assume that one thread makes all atomic accesses"),
    Option("unaligned", "allow accesses at any address, as x86-64 does"),
    Option(
        "args-from-input",
        "the words of the command line are the first numbers of the input, with eight bytes in each, and a 0 after them",
    ),
    Option("non-temporal", "lower a non-temporal store to a store and a flush after it"),
    Option("array-bound", "the size of an array of variable length", "SIZE", read={"type": size}),
    Option(
        "compile-commands",
        "a compile_commands.json, which has the arguments of clang for each C file",
        "FILE",
        read={"default": ""},
    ),
    Option("cache", "keep the modules of C files in a folder, for the next command", "FOLDER", read={"default": ""}),
    Option(
        "wrap",
        "a file that does not define the function NAME calls __wrap_NAME in its place, and __real_NAME is NAME",
        "NAME",
        True,
        read={"default": []},
    ),
)
