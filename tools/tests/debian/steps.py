"""One piece of C or C++ at one level: built natively, lowered, run, recorded, repaired, and built again."""
import os
import re
import shutil
import subprocess
import time
from dataclasses import dataclass

from pieces import Piece

HERE = os.path.dirname(os.path.abspath(__file__))
LEVELS = ["O0", "O1", "O2"]
COUNTS = ("reports", "flushes", "fences", "clones")
LINE_FLUSHES = ("-mclwb", "-mclflushopt")
LIMIT = 1800  # seconds of one step
PRINT_I64 = '#include <stdio.h>\nvoid print_i64(long long n) { printf("%lld\\n", n); }\n'


class Differs(Exception):
    """A step failed, or gave an unexpected answer."""


@dataclass(frozen=True)
class Setting:
    """Where the repository, hippo, the folder for what is made, and libpmem (or None) are."""

    top: str
    hippo: str
    scratch: str
    libpmem: str | None


def run(
    words: list[str], folder: str, environment: dict[str, str] | None = None, codes: tuple[int, ...] = (0,)
) -> subprocess.CompletedProcess[str]:
    """Runs a command; another exit code than these is a failure, with the first line of its messages."""
    try:
        done = subprocess.run(
            words,
            cwd=folder,
            env={**os.environ, **(environment or {})},
            stdin=subprocess.DEVNULL,
            capture_output=True,
            encoding="latin-1",
            timeout=LIMIT,
        )
    except subprocess.TimeoutExpired:
        raise Differs(f"{os.path.basename(words[0])} takes more than {LIMIT} s") from None
    if done.returncode not in codes:
        message = (done.stderr.strip().splitlines() or [""])[0]
        raise Differs(f"{os.path.basename(words[0])} ended with {done.returncode}: {message}")
    return done


def source_files(piece: Piece, source: str) -> list[str]:
    """All files of a piece, its driver first."""
    folder = HERE if piece.language == "c" else f"{HERE}/{piece.language}"
    driver = [] if piece.driver == "-" else [f"{folder}/{piece.driver or piece.name}.{piece.language}"]
    return driver + [f"{HERE}/{name}" for name in piece.own] + [f"{source}/{name}" for name in piece.sources]


def clang_flags(piece: Piece, source: str, folder: str) -> list[str]:
    """The flags for clang that both builds have."""
    own = [re.sub(r"^(-I|)(?=shims\b)", rf"\g<1>{HERE}/", flag) for flag in piece.flags]
    includes = [f"-I{source}/{folder}" for folder in piece.includes]
    return ["-D_GNU_SOURCE", "-w", *own, f"-I{HERE}", f"-I{folder}", *includes]


def configure(piece: Piece, source: str, folder: str) -> None:
    """Makes the headers that configure makes, from their templates."""
    for name, values in piece.configured.items():
        with open(f"{source}/{name}.in", encoding="latin-1") as template:
            text = template.read()
        with open(f"{folder}/{os.path.basename(name)}", "w", encoding="latin-1") as header:
            header.write(re.sub(r"@(\w+)@", lambda word: values.get(word[1], word[0]), text))


def make_files(piece: Piece, folder: str) -> None:
    """Makes what a native run finds in its folder."""
    for name, content in piece.files.items():
        with open(f"{folder}/{name}", "w", encoding="latin-1") as file:
            file.write(content if isinstance(content, str) else "\0" * content)


def native(piece: Piece, source: str, level: str, setting: Setting, folder: str) -> tuple[str, int]:
    """What the native build prints, and its exit code."""
    program = f"{folder}/native"
    externals = f"{folder}/external_functions.o"
    run(
        ["clang-19", "-c", f"-I{setting.top}/tools", "-o", externals, f"{setting.top}/tools/external_functions.c"],
        folder,
    )
    more = [externals, "-lpthread", "-lm"]
    environment = {}
    if piece.needs_libpmem:
        library = f"{setting.libpmem}/usr/lib/x86_64-linux-gnu"
        with open(f"{folder}/print.c", "w", encoding="ascii") as file:
            file.write(PRINT_I64)
        more = [f"{folder}/print.c", f"-I{setting.libpmem}/usr/include", f"-L{library}"]
        more += [f"-Wl,-rpath-link,{library}", "-lpmem2", "-lpmem"]
        environment = {"LD_LIBRARY_PATH": library, "PMEM2_FORCE_GRANULARITY": "CACHE_LINE", "PMEM_IS_PMEM_FORCE": "1"}
    command = ["clang-19", f"-{level}", *(["-lstdc++"] if piece.language == "cpp" else []), *LINE_FLUSHES]
    command += ["-ffunction-sections", "-Wl,--gc-sections", f"-I{setting.top}/tools"]
    command += [*clang_flags(piece, source, folder), "-o", program, *source_files(piece, source), *more]
    run(command, folder)
    done = run([program, *piece.arguments], folder, environment, tuple(range(128)))
    return done.stdout, done.returncode


def lowered(piece: Piece, source: str, level: str, setting: Setting, folder: str) -> tuple[str, float]:
    """The file of the lowered text, and the seconds that it took."""
    begin = time.monotonic()
    done = run(
        [
            f"{setting.top}/tools/lower",
            f"-{level}",
            *piece.options,
            *source_files(piece, source),
            *(["--args", *piece.arguments] if piece.arguments else []),
            "--",
            *clang_flags(piece, source, folder),
        ],
        folder,
    )
    text = f"{folder}/lowered.ll"
    with open(text, "w", encoding="latin-1") as file:
        file.write(done.stdout)
    return text, time.monotonic() - begin


def build(text: str, setting: Setting, folder: str) -> str:
    """A text of LLVM's form, built for this processor."""
    with open(text, encoding="latin-1") as file:
        content = file.read()
    with open("/proc/cpuinfo", encoding="latin-1") as file:
        if not re.search(r"\bclwb\b", file.read()):
            content = re.sub(r"@llvm\.x86\.clwb\b", "@llvm.x86.sse2.clflush", content)
    with open(f"{folder}/build.ll", "w", encoding="latin-1") as file:
        file.write(content)
    run(
        [
            "llc-19",
            "--trap-unreachable",
            "-mtriple=x86_64-pc-linux-gnu",
            "-relocation-model=pic",
            "-mattr=+clwb,+clflushopt",
            "-filetype=obj",
            "-o",
            f"{folder}/build.o",
            f"{folder}/build.ll",
        ],
        folder,
    )
    run(
        [
            "clang-19",
            f"-I{setting.top}/tools",
            "-o",
            f"{folder}/built",
            f"{folder}/build.o",
            f"{setting.top}/tools/external_functions.c",
        ],
        folder,
    )
    return f"{folder}/built"


def is_same(what: str, printed: str, code: int, expected: tuple[str, int]) -> None:
    """A run must print what the native build prints, and end with its exit code."""
    if printed != expected[0]:
        raise Differs(f"{what} prints something else than the native build")
    if code != expected[1]:
        raise Differs(f"{what} ends with {code}, the native build with {expected[1]}")


def hippo_run(what: str, text: str, setting: Setting, folder: str, expected: tuple[str, int]) -> None:
    """`hippo run` of a text must stop, with the expected output and exit code."""
    done = run([setting.hippo, "run", text], folder, codes=tuple(range(128)))
    last = (done.stderr.strip().splitlines() or [""])[-1]
    if not last.startswith("stop "):
        raise Differs(f"{what}: {last}")
    is_same(what, done.stdout, int(last.split()[1]) % 256, expected)


def repaired(text: str, setting: Setting, folder: str, code: int) -> tuple[str, dict[str, int]]:
    """The file of the repaired text, and the counts of `hippo repair`; its run has nothing left to report."""
    trace, target = f"{folder}/trace", f"{folder}/repaired.ll"
    with open(trace, "w", encoding="latin-1") as file:
        file.write(run([setting.hippo, "record", text], folder, codes=tuple(range(128))).stdout)
    done = run([setting.hippo, "repair", text, trace], folder)
    with open(target, "w", encoding="latin-1") as file:
        file.write(done.stdout)
    after = run([setting.hippo, "rerun", text, trace], folder).stderr.strip().splitlines()[-1]
    if after != "after 0":
        raise Differs(f"rerun: {after}")
    counts = dict(line.split() for line in done.stderr.strip().splitlines())
    return target, {name: int(counts[name]) for name in COUNTS}


def pass_through(piece: Piece, source: str, level: str, setting: Setting) -> tuple[object, ...]:
    """Takes a piece at a level through all steps; returns the lines of C, the level, the lowered lines, the seconds, and the counts."""
    folder = f"{setting.scratch}/{piece.name}.{level}"
    shutil.rmtree(folder, ignore_errors=True)
    os.makedirs(folder)
    make_files(piece, folder)
    configure(piece, source, folder)
    text, seconds = lowered(piece, source, level, setting, folder)
    expected = native(piece, source, level, setting, folder)
    hippo_run("hippo run", text, setting, folder, expected)
    mended, counts = repaired(text, setting, folder, expected[1])
    hippo_run("the repaired text", mended, setting, folder, expected)
    done = run([build(mended, setting, folder)], folder, codes=tuple(range(128)))
    is_same("the repaired build", done.stdout, done.returncode, expected)
    return (
        lines_of(source_of_lines(piece, source, folder)),
        level,
        lines_of([text]),
        f"{seconds:.1f}",
        *counts.values(),
    )


def source_of_lines(piece: Piece, source: str, folder: str) -> list[str]:
    """The files of the package whose lines are counted; of C++ these are all that clang reads."""
    if piece.language == "c":
        return [f"{source}/{name}" for name in piece.sources + piece.headers]
    words = [*clang_flags(piece, source, folder), f"-I{os.path.dirname(os.path.dirname(os.path.dirname(HERE)))}/tools"]
    read = run(["clang++-19", "-M", "-mclwb", *words, *source_files(piece, source)], folder).stdout
    return sorted({name for name in read.split() if os.path.realpath(name).startswith(os.path.realpath(source) + "/")})


def lines_of(names: list[str]) -> int:
    """The number of lines of files."""
    total = 0
    for name in names:
        with open(name, encoding="latin-1") as file:
            total += sum(1 for _ in file)
    return total
