"""What the tests of the runtime share: programs are lowered, run, and built for the processor."""
from __future__ import annotations

import re
import subprocess
import tempfile

from clang_case import HIPPO, TOP, ClangCase

FLAGS = ["-w", "-D_GNU_SOURCE", "-fno-builtin", "-mclwb", "-mclflushopt", f"-I{TOP}/tools"]
OUTPUT = ["--ignore-output"]
FILES = ["--file-calls", "--pool", "data.file=64K"]
POOL = ["--pool", "data.pool=16K"]


def run(words: list[str], folder: str) -> subprocess.CompletedProcess[str]:
    """Runs a command, whose exit code must be 0."""
    done = subprocess.run(words, cwd=folder, capture_output=True, encoding="latin-1")
    if done.returncode:
        raise AssertionError(f"{words[0]} ended with {done.returncode}: {done.stderr[:2000]}")
    return done


class Setting(ClangCase):
    """Programs lowered, run and built."""

    def setUp(self) -> None:
        """Makes a folder for each test."""
        room = tempfile.TemporaryDirectory()
        self.addCleanup(room.cleanup)
        self.folder = room.name

    def lowered(self, source: str, level: str, options: list[str]) -> str:
        """The file of the lowered text."""
        text = f"{self.folder}/lowered.ll"
        done = run([f"{TOP}/tools/lower", level, *options, source, "--", *FLAGS], self.folder)
        with open(text, "w", encoding="latin-1") as file:
            file.write(done.stdout)
        return text

    def hippo(self, text: str) -> str:
        """What `hippo run` prints; the run must end with `stop 0`."""
        done = run([HIPPO, "run", text], self.folder)
        self.assertEqual(done.stderr.strip().splitlines()[-1], "stop 0")
        return str(done.stdout)

    def built(self, text: str) -> str:
        """What a lowered text prints that is built for the processor."""
        with open(text, encoding="latin-1") as file:
            content = re.sub(r"@llvm\.x86\.clwb\b", "@llvm.x86.sse2.clflush", file.read())
        with open(f"{self.folder}/build.ll", "w", encoding="latin-1") as file:
            file.write(content)
        run(
            [
                "llc-19",
                "--trap-unreachable",
                "-mtriple=x86_64-pc-linux-gnu",
                "-relocation-model=pic",
                "-filetype=obj",
                "-mattr=+clwb,+clflushopt",
                "-o",
                "build.o",
                "build.ll",
            ],
            self.folder,
        )
        return self.output_of("build.o")

    def output_of(self, source: str) -> str:
        """What a native build prints."""
        run(["clang-19", "-O1", *FLAGS, "-o", "program", source, self.externals(), "-lpthread", "-lm"], self.folder)
        return str(run([f"{self.folder}/program"], self.folder).stdout)

    def source(self, text: str) -> str:
        """A file with this program."""
        name = f"{self.folder}/small.c"
        with open(name, "w", encoding="ascii") as file:
            file.write("#include <hippo.h>\n" + text)
        return name

    def end_of(self, text: str, *options: str) -> str:
        """The last line of the notes of `hippo run`."""
        lowered = self.lowered(self.source(text), "-O1", list(options))
        done = subprocess.run([HIPPO, "run", lowered], capture_output=True, encoding="latin-1")
        return done.stderr.strip().splitlines()[-1]
