#!/usr/bin/env python3
"""Random C programs of csmith: `hippo run` of each lowered text must print what the native build prints.

csmith makes a program from a seed with the options below: integers only, and no packed structs, since csmith takes
pointers to their fields, through which an access is misaligned and has no defined meaning. A program whose native build does not
end in time, or whose run is cut by hippo's limit of turns, is skipped and counted. The exit code is 1 if a program differs or is
refused; a line gives its seed and its level.
"""
import argparse
import glob
import os
import subprocess
import sys
import tempfile
from collections import Counter
from concurrent.futures import ThreadPoolExecutor

sys.dont_write_bytecode = True
from clang_case import HIPPO, TESTS, TOP  # noqa: E402

SHAPE = ["--no-float", "--no-packed-struct", "--max-funcs", "5", "--max-block-depth", "3"]
SECONDS = 1  # of the native run, on the processor
TURNS = 300000000
PROCESSOR = ["-mclwb", "-mclflushopt"]


def run(words: list[str], seconds: int = 0, folder: str | None = None) -> subprocess.CompletedProcess[str]:
    """Runs a command, for at most a number of seconds of processor time if one is given."""
    limit = ["prlimit", f"--cpu={seconds}"] if seconds else []
    return subprocess.run([*limit, *words], capture_output=True, encoding="latin-1", cwd=folder)


def flags(folder: str) -> list[str]:
    """The flags for clang that both builds have."""
    return ["-w", f"-I{TOP}/tools", f"-I{csmith_headers()}", f"-I{folder}", "-include", f"{TESTS}/checksum.h"]


def csmith_headers() -> str:
    """The folder of csmith.h."""
    found = glob.glob("/usr/include/csmith*") + glob.glob("/usr/local/include/csmith*")
    return found[0] if found else ""


def native_output(program: str, folder: str) -> str | None:
    """What the program prints natively, or nothing if it does not end in time."""
    built = f"{program}.native"
    check(run(["clang-19", "-O1", *PROCESSOR, *flags(folder), "-o", built, program, f"{folder}/externs.o"]))
    done = run([built], SECONDS)
    os.remove(built)
    return done.stdout if done.returncode == 0 else None


def check(made: subprocess.CompletedProcess[str]) -> None:
    """A compiler must succeed."""
    if made.returncode:
        raise RuntimeError(made.stderr)


def outcome(program: str, level: str, folder: str, hippo: str, expected: str) -> str:
    """`same`, `cut`, or how the program differs at a level."""
    made = run([f"{TOP}/tools/lower", f"-{level}", program, "--args", "--", *flags(folder)])
    if made.returncode:
        return "refused: " + (made.stderr.strip().splitlines() or ["?"])[0]
    text = f"{program}.{level}.ll"
    with open(text, "w", encoding="latin-1") as file:
        file.write(made.stdout)
    done = run([hippo, "run", text, "--limit", str(TURNS)])
    os.remove(text)
    last = (done.stderr.strip().splitlines() or ["?"])[-1]
    if last == "cut":
        return "cut"
    if last != "stop 0":
        return last
    return "same" if done.stdout == expected else f"prints {done.stdout.strip()} for {expected.strip()}"


def attempt(seed: int, levels: list[str], folder: str, hippo: str) -> list[tuple[int, str, str]]:
    """The outcome of a seed's program at each level."""
    program = f"{folder}/{seed}.c"
    made = run(["csmith", *SHAPE, "--seed", str(seed), "--output", program], 20, folder)  # it writes more files there
    expected = native_output(program, folder) if made.returncode == 0 else None
    if expected is None:
        return [(seed, level, "too long") for level in levels]
    results = [(seed, level, outcome(program, level, folder, hippo, expected)) for level in levels]
    os.remove(program)
    return results


def main() -> int:
    """Tries the programs of a range of seeds; returns 0 if none differs."""
    parser = argparse.ArgumentParser(description=__doc__, formatter_class=argparse.RawDescriptionHelpFormatter)
    parser.add_argument("--hippo", default=HIPPO, help="the program hippo (out/hippo)")
    parser.add_argument("--first", type=int, default=1, help="the first seed")
    parser.add_argument("--count", type=int, default=1000, help="the number of seeds")
    parser.add_argument("--levels", nargs="+", default=["O0", "O1", "O2"])
    parser.add_argument("--one-level", action="store_true", help="each program at one of the levels, in turn")
    parser.add_argument("--jobs", type=int, default=2)
    options = parser.parse_args()
    counts: Counter[str] = Counter()
    with tempfile.TemporaryDirectory() as folder, ThreadPoolExecutor(options.jobs) as workers:
        seeds = range(options.first, options.first + options.count)
        check(run(["clang-19", *PROCESSOR, "-c", "-o", f"{folder}/externs.o", f"{TOP}/tools/external_functions.c"]))
        levels = [[level] for level in options.levels] if options.one_level else [options.levels]
        for results in workers.map(
            lambda seed: attempt(seed, levels[seed % len(levels)], folder, options.hippo), seeds
        ):
            for seed, level, found in results:
                kind = found if found in ("same", "cut", "too long") else "differs"
                counts[kind] += 1
                if kind == "differs":
                    print(f"seed {seed} -{level}: {found}", flush=True)
    print(
        f'csmith {" ".join(SHAPE)}, seeds {seeds[0]} to {seeds[-1]}, levels {" ".join(options.levels)}: '
        + ", ".join(f"{counts[kind]} {kind}" for kind in ("same", "differs", "cut", "too long"))
    )
    return 1 if counts["differs"] else 0


if __name__ == "__main__":
    sys.exit(main())
