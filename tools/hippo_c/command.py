"""The command line of hippo-c."""
import argparse
import os
import re
import signal
import sys
import traceback

from lowering import options as lowering_options
from lowering.commands import set_jobs

from . import boundaries, builds, config, doctor, ends, install, starting, watching, wrapper
from .command_line import OF_PROGRAMS, parser
from .crashed_inputs import CrashedInput, rows_of
from .letters import shown
from .numbers import numbers_in
from .progress import Progress
from .reading import text_of
from .request import Request
from .trouble import Trouble
from .outputs import check_outputs

# What a command writes that others run must be the whole program, so it assumes nothing.
STRICT = ("repair",)
# The commands in which a function that has no form traps when it is called. In those that run a recovery each trap is a failure.
TRAPPING = ("check", "run", "pool", "suggest-commits")


def inputs_of(options: argparse.Namespace) -> tuple[list[list[int]], list[CrashedInput]]:
    """The inputs of the runs: one, or one for each line of a file; and the lines of that file with power cuts."""
    given = [name for name in ("input", "input_file", "inputs") if getattr(options, name, None) is not None]
    if len(given) > 1:
        raise Trouble("give one of --input, --input-file and --inputs")
    if options.input_file is not None:
        return [numbers_in(text_of(options.input_file), options.input_file)], []
    if getattr(options, "inputs", None) is not None:
        rows = list(rows_of(text_of(options.inputs), options.inputs))
        return [row.numbers for row in rows if not row.crashes], [row for row in rows if row.crashes]
    return [numbers_in(" ".join(options.input or []), "--input")], []


def lower_words(options: argparse.Namespace) -> list[str]:
    """The options that are passed on to tools/lower."""
    level = [f"-O{options.level}"] if options.level else []
    return [*level, *builds.words_of(options), *lowering_options.words_of(options)]


def request_of(options: argparse.Namespace, clang: list[str], arguments: list[str]) -> Request:
    """What the command runs; makes the folder of `--keep`."""
    inputs, crashed = inputs_of(options)
    clang = [*(options.for_clang or []), *clang]
    if options.keep:
        try:
            os.makedirs(options.keep, exist_ok=True)
        except OSError as error:
            raise Trouble(f"--keep {options.keep}: {error.strerror}") from None
    return Request(
        options.files,
        clang,
        lower_words(options),
        inputs,
        options.limit,
        options.keep or "",
        options.expand_macros,
        arguments,
        boundaries.boundaries_of(options),
        crashed,
        compile_commands=options.compile_commands or options.build or "",
        shares_arguments=options.build is not None,
        is_strict=options.strict or options.command in STRICT,
        traps_unsupported=not options.strict and options.command in TRAPPING,
    )


def split(words: list[str], mark: str) -> tuple[list[str], list[str]]:
    """The words before a mark, and those from the mark on."""
    place = words.index(mark) if mark in words else len(words)
    return words[:place], words[place:]


def read_words(words: list[str]) -> tuple[argparse.Namespace, list[str], list[str]]:
    """The options, the arguments of the program and those of clang; hippo.toml gives them where no file is named."""
    words, clang = split(words, "--")
    words, arguments = split(words, "--args")
    form = parser()
    options = parsed(form, with_levels(words))
    if not hasattr(options, "files"):
        return options, arguments, clang[1:]
    if options.files or options.build is not None:
        builds.take_files(options)
        return options, arguments, clang[1:]
    path = config.find()
    if path is None:
        raise Trouble(
            f"hippo-c {options.command}: no FILE is given, and no {config.NAME} stands here or in a folder around"
        )
    given, more_arguments, more_clang = config.Config(path).words(options.command, commands_of(form))
    place = words.index(options.command) + 1
    options = parsed(form, with_levels([*words[:place], *given, *words[place:]]))
    builds.take_files(options)
    if not options.files:
        raise Trouble(f"{os.path.relpath(path)}: it names no {config.SOURCES}")
    return options, arguments or (["--args", *more_arguments] if more_arguments else []), more_clang + clang[1:]


def parsed(form: argparse.ArgumentParser, words: list[str]) -> argparse.Namespace:
    """The options; FILEs may stand before and after other words."""
    options, rest = form.parse_known_args(words)
    if any(word.startswith("-") for word in rest) or rest and not hasattr(options, "files"):
        form.error(f'unrecognized arguments: {" ".join(rest)}')
    if rest:
        options.files = [*options.files, *rest]
    return options


def with_levels(words: list[str]) -> list[str]:
    """The words as argparse reads them: `-O2` is one word."""
    return [re.sub(r"^-O([0123s])$", r"-O=\1", word) for word in words]


def commands_of(form: argparse.ArgumentParser) -> dict[str, argparse.ArgumentParser]:
    """The parsers of the commands that run a program."""
    found = next(action.choices for action in form._actions if isinstance(action, argparse._SubParsersAction))
    return {one.name: found[one.name] for one in OF_PROGRAMS}


def carry_out(words: list[str], progress: Progress) -> int:
    """Carries out a command line, and returns its exit code."""
    options = argparse.Namespace()
    try:
        if wrapper.is_wrapper(words):
            return wrapper.main(words)
        options, arguments, clang = read_words(words)
        if options.command == "install":
            return install.install(options, parser())
        if options.command == "doctor":
            return doctor.doctor(options)
        if options.command == "init":
            return starting.init(options)
        if options.quiet:
            progress.shown = False
        set_jobs(getattr(options, "compile_jobs", None))
        check_outputs(options)
        if getattr(options, "watch", False):
            return watching.watch(options, words)
        code: int = options.carry_out(options, request_of(options, clang, arguments), progress)
        return code
    except Trouble as trouble:
        progress.wipe()
        ends.complain("\n".join(trouble.lines(getattr(options, "files", []))))
        return ends.FAILED


def main(words: list[str]) -> int:
    """Carries out a command line, and returns its exit code, also where its output cannot be written or a defect ends it."""
    progress = Progress()
    try:
        with ends.working():
            code = ended(words, progress)
        return code
    except KeyboardInterrupt:
        code, why = ends.INTERRUPTED, "interrupted"
    except ends.Signalled as signalled:
        name = signal.Signals(signalled.number).name
        code, why = 128 + signalled.number, "interrupted" if name == "SIGINT" else f"ended by {name}"
    except BrokenPipeError:
        return ends.FAILED
    except OSError as error:
        code, why = ends.FAILED, f'error: {shown(str(error.filename or "standard output"))}: {error.strerror}'
    except Exception as error:  # the exit code of an exception is that of a durability bug
        code, why = ends.FAILED, defect(error)
    progress.wipe()
    ends.complain(f"hippo-c: {why}")
    return code


def ended(words: list[str], progress: Progress) -> int:
    """The exit code of a command line whose output has been written."""
    try:
        code = carry_out(words, progress)
    except SystemExit as stopped:  # of argparse, after --help or a usage error
        code = stopped.code if isinstance(stopped.code, int) else ends.FAILED
    for stream in (sys.stdout, sys.stderr):
        stream.flush()
    return code


def defect(error: Exception) -> str:
    """Where a defect showed itself, and with HIPPO_TRACEBACK all calls to it."""
    if os.environ.get("HIPPO_TRACEBACK"):
        ends.complain("".join(traceback.format_exception(error)).rstrip())
    place = traceback.extract_tb(error.__traceback__)[-1]
    more = (
        ""
        if os.environ.get("HIPPO_TRACEBACK")
        else "\nhippo-c: hint: HIPPO_TRACEBACK=1 in the environment shows the calls; please report this defect"
    )
    return f"error: a defect of hippo-c: {type(error).__name__}: {shown(str(error))} at {place.filename}:{place.lineno} in {place.name}{more}"
