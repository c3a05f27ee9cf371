"""Compares a program, lowered at each level, with clang's own build of it.

Clang builds the lowered text, with the linkage that the source gave its names, and hippo runs it, if it is built: out/hippo, or the
program that HIPPO_PROGRAM names. Comments of a program give what differs from the defaults: `// input: NUMBERS`,
`// options: WORDS` of tools/lower, `// arguments: WORDS` of main, `// files: FILES` beside it, `// native: LEVEL` of clang's
own build, `// clang: WORDS` for clang, and `// levels: LEVELS`."""
import os
import re
import subprocess
from concurrent.futures import ThreadPoolExecutor

from clang_case import HIPPO, TOOLS, ClangCase

LEVELS = "-O0 -O1 -O2 -O3"
NATIVE = ["clang-19", "-w", "-fwrapv", "-fno-strict-aliasing", "-mclwb", "-mclflushopt", f"-I{TOOLS}"]
LIBRARIES = ["-lpthread", "-lm", "-lstdc++", "-latomic"]


def output_of(command: list[str], text: str = "") -> tuple[int, str, str]:
    """The exit code of a command, and what it writes."""
    done = subprocess.run(command, input=text, capture_output=True, encoding="latin-1", check=False)
    return done.returncode, done.stdout, done.stderr


def given(source: str, word: str, default: str = "") -> list[str]:
    """The words of a comment of a program."""
    found = re.search(rf"^// {word}: (.*)$", source, re.M)
    return (found[1] if found else default).split()


class Comparing(ClangCase):
    """Programs that clang builds, and lowered ones."""

    clang = ""

    def built(self, files: list[str], name: str, level: str = "-O1", more: tuple[str, ...] = ()) -> str:
        """A program that clang builds, with hippo's external functions."""
        program = os.path.join(self.folder, name)
        code, _, errors = output_of([*NATIVE, level, *more, "-o", program, *files, self.externals(), *LIBRARIES])
        self.assertEqual(code, 0, errors)
        return program

    def compare(self, file: str) -> None:
        """A program's output natively, and lowered at each level."""
        with open(file, encoding="utf-8") as text:
            source = text.read()
        name = os.path.splitext(os.path.basename(file))[0]
        numbers, arguments = given(source, "input", "0 1 2 3"), given(source, "arguments")
        more = [os.path.join(os.path.dirname(file), word) for word in given(source, "files")]
        clang = given(source, "clang", self.clang)
        native = self.built([file, *more], name, (given(source, "native") or ["-O1"])[0], tuple(clang))
        code, wanted, _ = output_of([native, *arguments], "\n".join(numbers))
        self.assertNotEqual(wanted, "", f"{name} prints nothing")
        options = [
            *given(source, "options"),
            *(["--args", *arguments] if arguments else []),
            *(["--", *clang] if clang else []),
        ]

        def at_level(level: str) -> list[str]:
            """What is wrong at a level."""
            return self.differences(name, [level, file, *more, *options], numbers, (code, wanted))

        with ThreadPoolExecutor(4) as workers:
            found = list(workers.map(at_level, given(source, "levels", LEVELS)))
        self.assertEqual([line for lines in found for line in lines], [])
        if not os.access(HIPPO, os.X_OK):
            self.skipTest("hippo is not built, so its runs are left out")

    def differences(self, name: str, words: list[str], numbers: list[str], wanted: tuple[int, str]) -> list[str]:
        """What is wrong with a program that is lowered with these words."""
        lowered = os.path.join(self.folder, f"{name}{words[0]}.ll")
        public = f"{lowered}.public"
        code, text, errors = output_of([os.path.join(TOOLS, "lower"), "--public", public, *words])
        if code:
            return [f"{words[0]}: {errors}"]
        with open(lowered, "w", encoding="latin-1") as file:
            file.write(text)
        output_of(
            [
                "opt-19",
                "-mtriple=x86_64-pc-linux-gnu",
                "-passes=internalize",
                f"-internalize-public-api-file={public}",
                "-o",
                f"{lowered}.bc",
                lowered,
            ]
        )
        program = self.built([f"{lowered}.bc"], f"{name}{words[0]}")
        code, printed, errors = output_of([program], "\n".join(numbers))
        found = []
        if (code, printed) != wanted:
            found.append(f"{words[0]}: built: {code} {first_difference(printed, wanted[1])}")
        if os.access(HIPPO, os.X_OK):
            code, printed, errors = output_of([HIPPO, "run", lowered, *numbers])
            if printed != wanted[1] or errors.split()[-2:] != ["stop", str(wanted[0])]:
                found.append(f"{words[0]}: hippo: {errors.strip()} {first_difference(printed, wanted[1])}")
        return found


def first_difference(got: str, wanted: str) -> str:
    """The first lines that differ."""
    for number, (one, other) in enumerate(zip([*got.split("\n"), "END"], [*wanted.split("\n"), "END"]), 1):
        if one != other:
            return f"line {number}: {one} where {other} is expected"
    return ""
