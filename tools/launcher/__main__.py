"""What `./hippo` does if the script cannot trust the proved program, or if a word is meant for the launcher itself.

The first of these that exists answers: the proved program, if its stamp names the current sources; the unproved build of the same
sources; an unproved build that the launcher makes first. Exit code 69 says that the launcher could not answer.
"""

from __future__ import annotations

import argparse
import os
import signal
import sys
import traceback
from pathlib import Path

sys.dont_write_bytecode = True
TOP = Path(__file__).resolve().parents[2]
sys.path.append(str(TOP / "tools"))

import unproved  # noqa: E402
from build import build, interrupted, processors, say  # noqa: E402
from kept import PROVED, Kept, Mark  # noqa: E402
from progress import Plan, minutes  # noqa: E402
from sources import CODE, Failed, Sources, toolchain  # noqa: E402

UNAVAILABLE = 69
UNPROVED = "out/unproved/hippo"
HELP = """\
hippo finds durability bugs in programs that use persistent memory, and writes repaired programs.

usage: hippo COMMAND WORDS...

Each command with an example, given in examples/:
  run     runs a program                                    hippo run key_value_log/log.ll
  record  runs a program and writes the trace of the run    hippo record key_value_log/log.ll
  check   reports each store that is not durable in time    hippo check one_store/one_store.ll one_store/one_store.trace
  repair  writes the repaired program                       hippo repair one_store/one_store.ll one_store/one_store.trace
  rerun   writes the trace of the repaired program          hippo rerun one_store/one_store.ll one_store/one_store.trace
  many    repairs a program for several traces              hippo many two_inputs/account.ll two_inputs/move.trace two_inputs/pay.trace
  crash   runs a program from what a crash may leave        hippo crash one_store/one_store.ll one_store/one_store.trace 3
  thin    repairs without flushes that nothing needs        hippo thin one_store/one_store.ll one_store/one_store.trace
  demo    generates, records, repairs and records again     hippo demo 1 8

The launcher's own words:
  --build [--jobs N] [--write-weights]    proves and builds the program, N crates side by side
  --install PREFIX                        copies the proved program, hippo-c, header, pages and completions under PREFIX
  --version                               the version, the commit, the toolchain, and whether the program is proved
  --help                                  this text

Until the program is built, an unproved build of the same sources answers. HIPPO_PROGRAM names another program to run.
"""


def how_to_build(sources: Sources) -> str:
    """The command that proves the program, with the time that it takes."""
    return f"./hippo --build proves it in about {minutes(Plan(sources, processors()).whole)}"


def why_not(proved: Kept, digest: str) -> str:
    """Why the proved program does not answer for these sources."""
    stamp = proved.read_stamp()
    if not stamp:
        return "the program is not proved here yet"
    if stamp["sources"] == digest:
        return f"{proved.program} is not the program that was proved"
    return "a source changed after the program was proved"


def answer(top: Path, words: list[str]) -> int:
    """Runs the program with the words."""
    sources = Sources(top)
    proved, tried = Kept(top / PROVED), Kept(top / UNPROVED)
    digest = sources.digest()
    if proved.is_made_from(digest):
        mark = Mark(proved.program)
        own = [path.relative_to(top) for path in (proved.program.parent, proved.program, proved.stamp, mark.watched)]
        mark.make(top, [*sources.watched(), *own], lambda: sources.digest() == digest and proved.is_made_from(digest))
        os.execv(proved.program, [str(proved.program), *words])
    why, how = why_not(proved, digest), how_to_build(sources)
    waits = f"{why}; waiting for an unproved build, with checks as it runs, that another process makes; {how}"
    with unproved.locked(top / "out" / "unproved.lock", lambda: say(waits)) as waited:
        if not tried.is_made_from(sources.digest(CODE)):
            rt, line = toolchain()
            say(f"{why}; making an unproved build, with checks as it runs, which takes one or two minutes, once; {how}")
            unproved.make(rt, sources, tried, line)
        elif not waited:
            say(f"{why}; an unproved build answers, with checks as it runs; {how}")
    return unproved.answer(tried.program, words, how)


def install(top: Path, words: list[str]) -> int:
    """Installs the program that HIPPO_PROGRAM names, or else the proved one, with hippo-c and what belongs to it."""
    command = [sys.executable, "-B", str(top / "tools" / "hippo-c"), "install", *words]
    if not os.environ.get("HIPPO_PROGRAM"):
        sources, proved = Sources(top), Kept(top / PROVED)
        digest = sources.digest()
        if not proved.is_made_from(digest):
            raise Failed(f"{why_not(proved, digest)}; {how_to_build(sources)}")
        command += ["--program", str(proved.program)]
    os.execv(sys.executable, command)


def version(top: Path) -> str:
    """The version, the commit, the toolchain, and whether the program is proved."""
    sources = Sources(top)
    proved = Kept(top / PROVED)
    stamp = proved.read_stamp()
    try:
        line = toolchain()[1]
    except Failed:
        line = "missing"
    if os.environ.get("HIPPO_PROGRAM"):
        state = f"unknown, HIPPO_PROGRAM names {os.environ['HIPPO_PROGRAM']}"
    elif proved.is_made_from(sources.digest()):
        state = f"yes, {stamp['time']}, by {stamp['toolchain']}"
    elif stamp:
        state = f"no, a source changed after the proof of {stamp['time']}"
    else:
        state = "no, ./hippo --build proves it"
    number = (top / "VERSION").read_text(encoding="utf-8").strip()
    return f"hippo {number}\ncommit: {sources.commit()}\ntoolchain: {line}\nproved: {state}\n"


def build_words(words: list[str]) -> argparse.Namespace:
    """The words after `--build`."""
    parser = argparse.ArgumentParser(prog="./hippo --build", allow_abbrev=False)
    parser.add_argument(
        "--jobs", type=int, default=processors(), metavar="N", help="the number of crates that are proved side by side"
    )
    parser.add_argument(
        "--write-weights", action="store_true", help="write the seconds of each crate to tools/crate_weights.txt"
    )
    given = parser.parse_args(words)
    if given.jobs < 1:
        parser.error("--jobs takes a number from 1")
    return given


def run(top: Path, words: list[str]) -> int:
    """Carries out the words, and returns the exit code."""
    if words[:1] == ["--help"]:
        sys.stdout.write(HELP)
        return 0
    if words[:1] == ["--version"]:
        sys.stdout.write(version(top))
        return 0
    if words[:1] == ["--install"]:
        return install(top, words[1:])
    if words[:1] == ["--build"]:
        given = build_words(words[1:])
        rt, line = toolchain()
        return build(rt, Sources(top), Kept(top / PROVED), line, given.jobs, given.write_weights)
    return answer(top, words)


def main(words: list[str]) -> int:
    """The launcher's exit code."""
    for number in (signal.SIGTERM, signal.SIGHUP):
        signal.signal(number, interrupted)
    try:
        return run(TOP, words)
    except Failed as fault:
        say(str(fault))
    except KeyboardInterrupt:
        return 128 + signal.SIGINT
    except OSError as fault:
        say(f"{fault.filename2 or fault.filename or 'the launcher'}: {fault.strerror}")
    except Exception as fault:  # the exit code of an exception is that of wrong words
        say_defect(fault)
    return UNAVAILABLE


def say_defect(fault: Exception) -> None:
    """Says where a defect of the launcher is; with the whole traceback if HIPPO_TRACEBACK asks for it."""
    if os.environ.get("HIPPO_TRACEBACK"):
        for line in "".join(traceback.format_exception(type(fault), fault, fault.__traceback__)).splitlines():
            say(line)
    place = traceback.extract_tb(fault.__traceback__)[-1]
    say(
        f"a defect of the launcher: {type(fault).__name__}: {fault} at {os.path.relpath(place.filename)}:{place.lineno}, in {place.name}; "
        "HIPPO_TRACEBACK=1 shows more"
    )


if __name__ == "__main__":
    sys.exit(main(sys.argv[1:]))
