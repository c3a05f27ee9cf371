"""The command `lower`: from the words of the command line to the lowered text."""
from __future__ import annotations

import json
import os
import sys
import traceback

from .commands import BY_SIGNAL, DONE, INTERNAL_ERROR, REFUSED, WRITE_FAULT, Failure, output_of
from .ends import STANDARD_OUTPUT, WORK, Signalled, drop, open_streams, say
from .front_end import program_of
from .module import Module
from .names import with_names_of_source
from .options import Help, Options, parse
from .reads import READS
from .outputs import check_outputs, write_whole

# Names the variable that adds Python's traceback to the line of a defect.
TRACEBACK = "HIPPO_TRACEBACK"


def main(words: list[str], description: str) -> int:
    """Lowers the program of the command line; the exit code."""
    try:
        try:
            WORK.listen()
            return answer(words, description)
        finally:
            WORK.close()
    except Signalled as signalled:
        WORK.close()
        return BY_SIGNAL + signalled.number


def answer(words: list[str], description: str) -> int:
    """The same, while signals are heard."""
    is_closed = STANDARD_OUTPUT in open_streams()
    try:
        options = parse(words, description)
        if is_closed and not options.target:
            return refuse_write("standard output is closed")
        check_outputs(options)
        return lower(options)
    except Failure as failure:
        say(str(failure))
        return failure.code
    except Help as asked:
        return refuse_write("standard output is closed") if is_closed else put(str(asked))
    except OSError as error:
        return refuse_write(f'{error.filename or "a temporary file"}: {error.strerror}')
    except MemoryError:
        say("memory ran out")
        return INTERNAL_ERROR
    except Exception as error:  # the exit code of an exception is that of a usage error
        return defect(error)


def defect(error: Exception) -> int:
    """Says where a defect of this tool is; the exit code."""
    place = traceback.extract_tb(error.__traceback__)[-1]
    more = "" if os.environ.get(TRACEBACK) else f"; {TRACEBACK}=1 shows more"
    if not more:
        for line in traceback.format_exception(error):
            for part in line.rstrip("\n").split("\n"):
                say(part)
    say(
        f"a defect of this tool: {type(error).__name__}: {error} at {os.path.relpath(place.filename)}:{place.lineno}, in {place.name}{more}"
    )
    return INTERNAL_ERROR


def lower(options: Options) -> int:
    """Lowers a program and writes its text, or what is refused; the exit code."""
    if options.reads:
        READS.begin(WORK.folder())
    program = program_of(options)
    try:
        module = Module(program, options)
    except RecursionError:
        raise Failure(f'{", ".join(options.files)}: a type or a constant is nested too deep', REFUSED) from None
    refused = module.refusals.text()
    if refused:
        for line in with_names_of_source(refused):
            say(line)
        return REFUSED
    text = module.text()
    assemble(text, module)
    said = [say(f"note: {note}") for note in with_names_of_source(sorted(module.notes))]
    if not all(said):
        return WRITE_FAULT
    if options.public:
        write_public(options.public, program.public_names, module)
    if options.requests and module.has_requests:
        write_whole(options.requests, Module(program, options, marks_requests=True).text().encode("latin-1"))
    if options.reads:
        write_whole(options.reads, json.dumps(READS.states(options)).encode("ascii"))
    if options.target:
        write_whole(options.target, text.encode("latin-1"))
        return DONE
    return put(text)


def put(text: str) -> int:
    """Writes a text to standard output; the exit code."""
    try:
        sys.stdout.write(text)
        sys.stdout.flush()
    except OSError as error:
        return refuse_write(str(error.strerror))
    return DONE


def refuse_write(reason: str) -> int:
    """Says why an output could not be written; the exit code."""
    drop(STANDARD_OUTPUT)
    say(f"write fault: {reason}")
    return WRITE_FAULT


def assemble(text: str, module: Module) -> None:
    """Checks the text by llvm-as."""
    try:
        output_of(["llvm-as-19", "-o", "/dev/null", "-"], text)
    except Failure as failure:
        if not module.jumps.has_sites:
            raise
        raise Failure(
            "LLVM keeps a value in a register across a setjmp: give the C file, and not its .ll file", failure.code
        ) from None


def write_public(file: str, names: list[str], module: Module) -> None:
    """Writes the names, in the lowered text, of what other object files may use."""
    spelled = [module.names[f"@{name}"] for name in names if f"@{name}" in module.names]
    write_whole(file, "".join(f"{name}\n" for name in spelled).encode("latin-1"))
