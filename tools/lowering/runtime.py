"""Links a program with the functions that it calls of the runtime, the C and C++ libraries in `tools/runtime`."""
import glob
import os
import re
from collections.abc import Callable
from concurrent.futures import ThreadPoolExecutor
from functools import partial

from .commands import READ_FAULT, Failure, jobs, output_of
from .externs import EXTERNS
from .floats import functions_needed, has_floats
from .jumps import JUMP, SETJMP
from .languages import compiler, is_cpp
from .library import refused_in_library
from .module_cache import kept
from .options import Options, Pool
from .reads import listing
from .refusals import Refused
from .start import HEAP_ON_STACK, WORDS_FROM_INPUT
from .throws import without_throws

RUNTIME = os.path.join(os.path.dirname(os.path.dirname(os.path.abspath(__file__))), "runtime")
# Functions whose calls tools/lower replaces.
IN_PLACE = (JUMP[1:], *SETJMP)
# Calls that register what runs after main.
AT_END = {"atexit", "__cxa_atexit", "__cxa_thread_atexit"}
RUNTIME_FLAGS = ["-O1", "-D_GNU_SOURCE", "-ffreestanding", "-fno-builtin", "-mno-implicit-float", "-w"]
# The places in a module do not depend on the folder in which the command runs.
ANYWHERE = "-fdebug-compilation-dir=/"
# The C++ files make what the headers declare of templates, as those of the user's build.
OF_CPP = ["-O1", "-std=c++20", "-w"]
# Files that only an option links: each depends on an assumption that the user must make.
BEHIND_OPTION: dict[str, tuple[str, Callable[[Options], object]]] = {
    "threads.c": ("--single-thread", lambda options: options.single_thread),
    "cpp_streams.c": ("--ignore-output or --print-numbers", lambda options: options.output),
    "output.c": ("--ignore-output or --print-numbers", lambda options: options.output),
    "descriptor.c": ("--file-calls", lambda options: options.file_calls),
    "file.c": ("--file-calls", lambda options: options.file_calls),
    "mapping.c": ("--file-calls", lambda options: options.file_calls),
    "paths.c": ("--file-calls", lambda options: options.file_calls),
}
# What other files of the runtime assume: the note for each.
ASSUMED = {
    "heap.c": "heap",
    "aligned_heap.c": "heap",
    "libpmem.c": "pool",
    "libpmem2.c": "pool",
    "time.c": "time",
    "calendar.c": "zone",
    "system.c": "system",
}
# The start of a function, and of a variable that is a pointer to functions.
HEAD = re.compile(r"[^(]*\(\*(\w+)|[^(]*?(\w+) *\(")
DECLARED = re.compile(r'^(?:declare [^@\n]*|)@("[^"\n]*"|[-A-Za-z$._0-9]+)(?:\(| = (?:\w+ )*?external\b)', re.M)

USED = '@llvm.compiler.used = appending global [{count} x ptr] [{names}], section "llvm.metadata"\n'


class Runtime:
    """The runtime for one program. `gated` has the names that are not linked without an option, `assumed` the notes of those that are."""

    def __init__(self, options: Options, folder: str, flags: list[str]) -> None:
        self.options, self.folder, self.flags = options, folder, flags
        self.has_floats = self.has_new = False
        self.gated: dict[str, str] = {}
        self.assumed: dict[str, tuple[str, str]] = {}

    def link(self, program: str, text: str) -> str:
        """The name of a file with the program and what it needs of the runtime."""
        used, self.has_floats = functions_needed(text), has_floats(text)
        self.has_new = re.search(r"^define [^@\n]*@_Znwm\(", text, re.M) is not None
        if not (needed := undefined(text) | used) and not self.options.args_from_input:
            return program
        if AT_END & needed:
            used.add("hippo_run_atexit")
        if self.options.args_from_input:
            used.update(name for _, name in WORDS_FROM_INPUT)
        if self.options.heap_on_stack:
            used.add(HEAP_ON_STACK)
        user = self.with_uses(program, text, used) if used else program
        needed |= used
        compiled = self.compile_needed(needed, self.files(needed))
        if not compiled:
            return program
        library, target = f"{self.folder}/runtime.bc", f"{self.folder}/with_runtime.ll"
        output_of(["llvm-link-19", "-o", library, *compiled])
        output_of(["llvm-link-19", "-S", "--only-needed", "-o", target, user, library])
        return target

    def with_uses(self, program: str, text: str, names: set[str]) -> str:
        """The name of a file, of bitcode, with the program and a use of these functions, which only the lowering calls: what floats
        need, and hippo_run_atexit, which `main` calls at its end."""
        uses, target = f"{self.folder}/uses.ll", f"{self.folder}/with_uses.bc"
        lines = [f"declare void @{name}()" for name in sorted(names)]
        listed = USED.format(count=len(names), names=", ".join(f"ptr @{name}" for name in sorted(names)))
        with open(uses, "w", encoding="latin-1") as file:
            file.write("\n".join([*re.findall("^target .*$", text, re.M), listed, *lines, ""]))
        output_of(["llvm-link-19", "-o", target, program, uses])
        return target

    def files(self, needed: set[str]) -> list[str]:
        """The files that may be linked under these options; the names of the others are gated."""
        files = []
        for file in sorted(glob.glob(f"{RUNTIME}/*.c*")):
            option = BEHIND_OPTION.get(os.path.basename(file), ("", None))[0]
            if is_linked(file, self.options):
                files.append(file)
                if note := self.note_for(os.path.basename(file)):
                    names = needed & names_at_line_starts(file) - {HEAP_ON_STACK}
                    self.assumed.update((name, note) for name in names)
            else:
                self.gated.update((name, option) for name in names_at_line_starts(file))
        pools = f"{self.folder}/pools.c"
        with open(pools, "w", encoding="latin-1") as text:
            text.write(pools_text(self.options.pools) + environment_text(self.options.environment))
        return files + [pools]

    def note_for(self, file: str) -> tuple[str, str] | None:
        """The note for the functions of a file, and its option."""
        if file in BEHIND_OPTION:
            return "functions", BEHIND_OPTION[file][0]
        if file == "time.c" and self.options.time_from_input:
            return "functions", "--time-from-input"
        return (ASSUMED[file], "") if file in ASSUMED else None

    def compile_needed(self, needed: set[str], files: list[str]) -> list[str]:
        """The modules of those files that define a needed name, or one that such a file needs itself."""
        names, compiled = {file: names_at_line_starts(file) for file in files}, []
        while taken := [file for file in names if needed & names[file] or provides(file, needed)]:
            modules = self.compile_all(taken)
            compiled += modules
            for file in taken:
                del names[file]
            needed = set().union(*(undefined(read(module)) for module in modules))
        return compiled

    def compile_all(self, files: list[str]) -> list[str]:
        """The names of the modules of files of the runtime, which are compiled side by side."""
        flags = [*self.flags, ANYWHERE, *macros(self.options), f"-I{RUNTIME}"]
        if self.has_floats:
            flags.append("-DHIPPO_FLOATS")
        if self.has_new:
            flags.append("-DHIPPO_OWN_NEW")

        def one(file: str) -> str:
            target, listed = (f"{self.folder}/{os.path.basename(file)}.{end}" for end in ("ll", "d"))
            command = [*compiler(file), *flags, *(OF_CPP if is_cpp(file) else RUNTIME_FLAGS), "-o", "-", file]
            if os.path.dirname(file) == RUNTIME:
                make = partial(made_module, [command[0], *listing(listed), *command[1:]])
                kept(command, make, listed, target)
            else:
                with open(target, "w", encoding="latin-1") as out:
                    out.write(made_module(command))
            return target

        with ThreadPoolExecutor(jobs()) as workers:
            return list(workers.map(one, files))


def made_module(command: list[str]) -> str:
    """The text of a module of the runtime."""
    return without_throws(output_of(command))[0]


def provides(file: str, needed: set[str]) -> bool:
    """Whether a C++ file defines one of the names. A comment has the form of the names, which are those of templates."""
    forms = re.findall("^// provides (.*)$", read(file), re.M) if is_cpp(file) else []
    return any(re.match(form, name) for form in forms for name in needed)


def names_at_line_starts(file: str) -> set[str]:
    """The names of the functions and the words of the variables that a C file may define: of each line that is not indented, the
    name before its first parenthesis, or all words."""
    found: set[str] = set()
    for line in [] if is_cpp(file) else re.findall(r"^(?!static\b|typedef\b|extern\b)[A-Za-z_].*", read(file), re.M):
        head = HEAD.match(line)
        found |= {head[1] or head[2]} if head else set(re.findall(r"\w+", line))
    return found


def read(file: str) -> str:
    """The text of a file of the runtime."""
    with open(file, encoding="latin-1") as text:
        return text.read()


def reason_for(name: str, gated: dict[str, str]) -> Refused | None:
    """Why a function that the program does not define is refused, if more is known than that it is missing."""
    if name in gated:
        return Refused(f"the function @{name}: give {gated[name]}", "option")
    return refused_in_library(name)


def undefined(text: str) -> set[str]:
    """The names that a module uses and does not define, except those that hippo or LLVM knows."""
    names = (name.strip('"') for name in DECLARED.findall(text))
    return {name for name in names if name not in EXTERNS and name not in IN_PLACE and not name.startswith("llvm.")}


def is_linked(file: str, options: Options) -> bool:
    """Whether a file of the runtime may be linked under these options."""
    behind = BEHIND_OPTION.get(os.path.basename(file))
    return behind is None or bool(behind[1](options))


def macros(options: Options) -> list[str]:
    """The macros by which options change the C files of the runtime."""
    said = []
    if options.heap is not None:
        said.append(f"-DHIPPO_HEAP_SIZE={options.heap}")
    if options.heap_on_stack:
        said.append(f"-DHIPPO_HEAP_ON_STACK={options.heap_on_stack}")
    if options.output == "print":
        said.append("-DHIPPO_PRINT_NUMBERS")
    if options.time_from_input:
        said.append("-DHIPPO_TIME_FROM_INPUT")
    return said


def pools_text(pools: list[Pool]) -> str:
    """A C file that defines the pools: for each its bytes and its file, in the persistent region, and its entry."""
    lines, entries = ["#include <hippo.h>", '#include "pool.h"'], []
    for number, pool in enumerate(pools):
        content = content_of(pool)
        words = [int.from_bytes(content[place : place + 8], "little") for place in range(0, len(content), 8)]
        while words and not words[-1]:
            words.pop()
        size = -(-pool.size // 8)
        lines.append(
            f"PERSISTENT static _Alignas(4096) unsigned long long hippo_pool_{number}[{size}] = {{"
            + ", ".join(f"{word}u" for word in words)
            + "};"
        )
        state = f"{len(content)}, {int(bool(pool.content))}"
        lines.append(f"PERSISTENT static struct hippo_file hippo_file_{number} = {{{state}}};")
        name = "".join(f"\\{byte:03o}" for byte in os.fsencode(pool.name))
        entries.append(f'{{"{name}", (unsigned char *)hippo_pool_{number}, {pool.size}, &hippo_file_{number}}}')
    lines.append(f'struct hippo_pool hippo_pools[] = {{{", ".join(entries)}}};')
    lines.append(f"const unsigned long hippo_pool_count = {len(pools)};")
    return "\n".join(lines) + "\n"


def environment_text(variables: list[str]) -> str:
    """The line of C that defines the environment."""
    texts = ['"' + "".join(f"\\{byte:03o}" for byte in os.fsencode(variable)) + '"' for variable in variables]
    return f'char *hippo_environment[] = {{{", ".join([*texts, "NULL"])}}};\n'


def content_of(pool: Pool) -> bytes:
    """The bytes of a pool's file at the start."""
    if not pool.content:
        return b""
    try:
        with open(pool.content, "rb") as file:
            content = file.read(pool.size + 1)
    except OSError as error:
        raise Failure(f"read fault: {pool.content}: {error.strerror}", READ_FAULT) from None
    if len(content) > pool.size:
        raise Failure(f"{pool.content} has more bytes than the pool {pool.name}", READ_FAULT)
    return content
