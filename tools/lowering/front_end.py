"""From C and C++ files to one module of LLVM's text form, by clang, llvm-link and opt."""
from __future__ import annotations

import os
import re
from concurrent.futures import ThreadPoolExecutor
from dataclasses import dataclass

from .before_passes import Facts, changed
from .commands import REFUSED, Failure, jobs, output_of
from .compile_cache import kept
from .definitions import MAIN, check_definitions, check_mains, persistent_declarations, read
from .divisions import with_checks
from .ends import WORK
from .inline import INLINE, link_inline
from .languages import FLAGS, command_for, compiler, is_cpp, is_source
from .module_cache import kept_unit
from .names import LOOKS_PERSISTENT, unescaped
from .objects import Unit, is_object, units_of
from .options import Options
from .places import Places, has_circle
from .reads import OF_TEXT
from .runtime import Runtime, undefined
from .setjmp import calls_setjmp, with_passes, without_passes
from .vectors import USED as VECTORS
from .wrapping import wrapped

TOOLS = os.path.dirname(os.path.dirname(os.path.abspath(__file__)))
UNOPTIMISED = "-Xclang -disable-llvm-passes -o -".split()
NOT_PUBLIC = re.compile(r"\b(?:internal|private|hidden|available_externally|linkonce\w*|weak\w*)\b")

# A global with a section.
SECTION = re.compile(r'^@("[^"\n]*"|[-A-Za-z$._0-9]+) = [^\n]* section "([^"\n]*)"', re.M)

# LLVM's passes that run if the text has an instruction that they lower.
ON_DEMAND = {
    "lower-constant-intrinsics": r"@llvm\.(?:objectsize|is\.constant)\.",
    "expand-large-div-rem": r" [us](?:div|rem) (?:exact )?i(?:6[5-9]|[7-9][0-9]|1[0-2][0-9]) ",
}

# Other targets have other layouts of types, or of variable arguments.
TARGET = re.compile(r"x86_64-(?!.*(?:windows|win32|mingw|cygwin|uefi|x32)).*")
LAYOUT = re.compile(r"e(?!.*\bp:(?!64\b)).*")

# How bitcode begins, alone or in a wrapper.
BITCODE = ("BC\xc0\xde", "\xde\xc0\x17\x0b")

ATOMIC = r"^ .*\b(?:atomic|cmpxchg|atomicrmw|fence)\b"


@dataclass
class Program:
    """The module of a program.

    In `text` each value and each block has a name. `own_names` are the names that the files define, `public_names` those that other
    object files may use. `gated_names` are names of the runtime with the option that would link them, `assumed_names` those that are linked, with the note
    that says what is assumed, and its option. `facts` are those of the files before LLVM's passes."""

    text: str
    own_names: set[str]
    public_names: list[str]
    gated_names: dict[str, str]
    assumed_names: dict[str, tuple[str, str]]
    has_atomics: bool
    facts: Facts


def program_of(options: Options) -> Program:
    """The program that the files of a command line make, with the functions of the runtime that it needs."""
    folder = WORK.folder()
    parts = parts_of(options.files)
    names = [part if isinstance(part, str) else part.name for part in parts]
    targets = [f"{folder}/{number}.ll" for number in range(len(parts))]
    with ThreadPoolExecutor(jobs()) as workers:
        modules = list(workers.map(module_of, parts, [options] * len(targets), targets))
    files, facts = [file for file, _ in modules], Facts()
    for _, of_file in modules:
        facts.add(of_file)
    check_mains(names, files)
    declared = persistent_declarations(zip(names, files))
    linked = files[0] if len(files) == 1 else link(files, f"{folder}/linked.ll")
    text = read(linked)
    check_definitions(declared, text)
    own, public = names_of(text)
    runtime = Runtime(options, folder, [*FLAGS, f"-I{TOOLS}"])
    linked = runtime.link(linked, text)
    text = read(linked)
    if undefined(text):
        sources = [  # a file that calls an inline function sees its body, and its module declares the function
            (command_for(part, "-O1", options, TOOLS), facts.inline.get(part, undefined(read(file))))
            for part, file in zip(parts, files)
            if isinstance(part, str) and is_source(part)
        ]
        linked, inline = link_inline(linked, text, sources, options.level, folder)
        if inline:
            own |= inline
            linked = runtime.link(linked, read(linked))
            text = read(linked)
    checked = with_checks(text)
    source = (linked, None) if checked == text else ("-", checked)
    lowered = output_of(["opt-19", "-S", *passes(options, text), source[0]], source[1])
    has_atomics = options.single_thread and re.search(ATOMIC, text, re.M) is not None
    return Program(lowered, own, public, runtime.gated, runtime.assumed, has_atomics, facts)


def global_places(options: Options) -> dict[str, str]:
    """The places of globals in C and C++, as `FILE:LINE: `, since line tables do not have them."""
    found: dict[str, str] = {}
    for file in filter(is_source, options.files):
        text = output_of([*command_for(file, "-O0", options, TOOLS), "-w", "-g", "-o", "-"])
        files = Places(text).names
        places = dict(re.findall(r"^(!\d+) = (?:distinct )?!DIGlobalVariable\((.*)", text, re.M))
        variables = dict(re.findall(r"^(!\d+) = !DIGlobalVariableExpression\(var: (!\d+)", text, re.M))
        for name, number in re.findall(r'^@("[^"\n]*"|[-A-Za-z$._0-9]+) = .*, !dbg (!\d+)', text, re.M):
            where = re.search(r"\bfile: !(\d+), line: (\d+)", places.get(variables.get(number, ""), ""))
            if where:
                found.setdefault(name.strip('"'), f"{files.get(where[1], file)}:{where[2]}: ")
    return found


def parts_of(files: list[str]) -> list[str | Unit]:
    """The files, and in place of an object or an archive what its objects were made of."""
    found: list[str | Unit] = []
    for file in files:
        if is_object(file):
            found.extend(units_of(file))
        else:
            found.append(file)
    return found


def module_of(file: str | Unit, options: Options, target: str) -> tuple[str, Facts]:
    """The name of a file with the module of one file, which is C, C++, LLVM's text form or an object, and its facts."""
    if isinstance(file, Unit):
        text, facts = module_of_unit(file, options, target)
        return write(target, wrapped(text, options.wrap) if options.wrap else text), facts
    text, facts = read(file), Facts()
    if text.startswith(BITCODE):
        raise Failure(f"{file}: this is bitcode: give the text form that llvm-dis-19 makes of it", REFUSED)
    if is_source(file):
        text, facts = module_of_source(file, options, "setjmp" in text)
    else:
        check_places(file, text)
        given = text
        text, facts = changed(text)
        if text == given and os.path.isfile(file) and not options.wrap:  # so that LLVM's messages have its name
            target = file
    check_target(file, text)
    if options.wrap:
        text = wrapped(text, options.wrap)
    return target if target == file else write(target, text), facts


def module_of_source(file: str, options: Options, may_jump: bool) -> tuple[str, Facts]:
    """The module of a source file, which a folder may keep, and its facts. A C file that does not say `setjmp` may still call it by a header."""

    def make() -> tuple[str, Facts]:
        if may_jump or is_cpp(file):
            return compile_in_two_steps(file, options)
        text = compiled(file, options)
        return compile_in_two_steps(file, options) if calls_setjmp(text) else (text, Facts())

    command = command_for(file, options.level, options, TOOLS)
    return kept(options.cache, command, make) if options.cache else kept_unit(command, make)


def compiled(file: str, options: Options, *more: str) -> str:
    """The text that clang makes of a file."""
    text = output_of([*command_for(file, options.level, options, TOOLS), *(more or ("-o", "-"))])
    if not text.startswith("; ModuleID"):
        raise Failure(f"{file}: clang wrote no text of LLVM's: an argument after -- asks for something else", REFUSED)
    return text


def compile_in_two_steps(file: str, options: Options) -> tuple[str, Facts]:
    """The module of a file that is changed before LLVM's passes, and its facts; the passes leave out the functions that call
    `setjmp`."""
    return optimised(compiled(file, options, *UNOPTIMISED), file, options)


def module_of_unit(unit: Unit, options: Options, target: str) -> tuple[str, Facts]:
    """The module of what an object was made of, and its facts."""
    path = f"{target}.bc"
    with open(path, "wb") as out:
        out.write(unit.bitcode)
    text = output_of(["llvm-dis-19", "-o", "-", path])
    check_places(unit.name, text)
    check_target(unit.name, text)
    return optimised(text, unit.source, options)


def optimised(text: str, file: str, options: Options) -> tuple[str, Facts]:
    """The module of a text before LLVM's passes, which is changed before them, and its facts."""
    before, facts = changed(text)
    if options.level != "-O0":  # at this level clang writes no such bodies
        facts.inline[file] = {name.strip('"') for name in INLINE.findall(before)}
    name, *flags = compiler(file)
    optimise = [name, options.level, *FLAGS, *flags, "-w", *OF_TEXT]
    if calls_setjmp(before):
        return with_passes(output_of(optimise, without_passes(before))), facts
    return output_of(optimise, before), facts


def check_target(file: str, text: str) -> None:
    """Refuses the text of a target with another layout than that of x86-64 and Linux."""
    for word, form in (("triple", TARGET), ("datalayout", LAYOUT)):
        found = re.search(rf'^target {word} = "([^"]+)"', text, re.M)
        if found and not form.fullmatch(found[1]):
            raise Failure(
                f"{file}: the target {word} {found[1]} is not that of x86-64 and Linux, whose layout the lowered text has",
                REFUSED,
            )


def check_places(file: str, text: str) -> None:
    """Refuses places in C that lead in a circle, since clang writes none, and LLVM's tools do not end on them."""
    if has_circle(text):
        raise Failure(
            f"{file}: the places of instructions lead in a circle: a scope or an inlined call is within itself", REFUSED
        )


def link(modules: list[str], target: str) -> str:
    """The name of a file with all of the modules."""
    output_of(["llvm-link-19", "-S", "-o", target, *modules])
    return target


def write(file: str, text: str) -> str:
    """The name of a file that has a text then."""
    with open(file, "w", encoding="latin-1") as out:
        out.write(text)
    return file


def names_of(text: str) -> tuple[set[str], list[str]]:
    """The names that a module defines, and those of them that other object files may name, in order."""
    own, public = set(), []
    for found in re.finditer(r'^(?:define ([^@\n]*)@|@)("[^"\n]*"|[-A-Za-z$._0-9]+)(.*)$', text, re.M):
        head, name, rest = found[1], found[2].strip('"'), found[3]
        linkage = head if head is not None else rest.split(" global ")[0].split(" constant ")[0]
        if head is None and re.match(r" = (?:\w+ )*?(?:external|extern_weak)\b", rest):
            continue
        own.add(name)
        if not NOT_PUBLIC.search(linkage) and not name.startswith("llvm."):
            public.append(name)
    return own, public


def passes(options: Options, text: str) -> list[str]:
    """LLVM's passes over the linked module: only what `main` reaches and what is persistent stays."""
    names, flags = [], []
    if MAIN.search(text):
        kept = [
            "main",
            *(name for name, section in SECTION.findall(text) if LOOKS_PERSISTENT.match(unescaped(section))),
        ]
        names, flags = ["internalize", "globaldce"], [f'-internalize-public-api-list={",".join(kept)}']
    functions = [name for name, pattern in ON_DEMAND.items() if re.search(pattern, text)]
    if "expand-large-div-rem" in functions:
        flags += ["-mtriple=x86_64-pc-linux-gnu", "-expand-div-rem-bits=64"]
    if options.single_thread and re.search(ATOMIC, text, re.M):
        functions.append("lower-atomic")
    if options.mem2reg and not calls_setjmp(text):
        functions.append("mem2reg")
    if VECTORS.search(text):
        functions.append("scalarizer")
    names.append(f'function({",".join([*functions, "instnamer"])})')
    return [f'-passes={",".join(names)}', *flags]
