"""The installation, its completions and manual pages, and builds by make and CMake from a clean folder."""
import json
import os
import re
import shutil
import sys
import unittest
from unittest import mock

from . import common
from .common import TOOLS, TOP, Case, built_program

from hippo_c import completions
from hippo_c.command_line import parser

DRIVER = "#include <hippo.h>\nvoid put(long v);\nlong get(void);\nint main(void) {\n  put(read_i64());\n  print_i64(get());\n  return 0;\n}\n"
STORE = "#include <hippo.h>\nPERSISTENT static long kept;\nvoid put(long v) {\n  kept = v;\n%s}\nlong get(void) { return kept; }\n"
MAKEFILE = """HIPPO_C = {hippo_c}
HIPPO_SOURCES = store.c driver.c
HIPPO_PARTS = store.c
HIPPO_INPUTS = inputs
HIPPO_BASELINE = baseline
HIPPO_FLAGS = --clflush
include {tools}/build/hippo.mk
program: repaired.o driver.c
\tclang-19 -mclwb -I{tools} -o $@ $^ {tools}/external_functions.c
"""
CMAKE = """cmake_minimum_required(VERSION 3.20)
project(tried C)
include({tools}/build/hippo.cmake)
hippo_repaired(store SOURCES store.c driver.c PARTS store.c INPUTS inputs BASELINE baseline FLAGS --clflush)
add_executable(program driver.c {tools}/external_functions.c)
target_include_directories(program PRIVATE {tools})
target_compile_options(program PRIVATE -mclwb)
target_link_libraries(program store)
"""


class Install(Case):
    """What is put where, and that it runs from there."""

    def setUp(self) -> None:
        """Needs a built program."""
        super().setUp()
        self.built = built_program()
        if not self.built:
            self.skipTest("hippo is not built")

    def test_an_installation_runs_alone(self) -> None:
        ran = self.command("python3", "-B", f"{TOOLS}/hippo-c", "install", "here", "--program", self.built)
        self.assertEqual(ran.returncode, 0, ran.stderr)
        for name in (
            "bin/hippo",
            "bin/hippo-c",
            "bin/hippo-lower",
            "include/hippo.h",
            "share/man/man1/hippo.1",
            "share/man/man1/hippo-c.1",
            "share/bash-completion/completions/hippo-c",
            "lib/hippo/build/hippo.mk",
            "lib/hippo/headers/libpmem.h",
            "share/bash-completion/completions/hippo-lower",
            "share/doc/hippo/docs/HIPPO_C.md",
            "share/doc/hippo/README.md",
            "share/doc/hippo/examples/ring_buffer/ring.c",
        ):
            self.assertTrue(os.path.isfile(self.path(f"here/{name}")), name)
        self.take("ring_buffer", "ring.c")
        environment = {"PATH": f'{self.path("here/bin")}:{os.environ["PATH"]}', "HOME": self.folder}
        ran = self.command("hippo-c", "check", "ring.c", "--input", "0", env=environment)
        self.assertEqual(ran.returncode, 0, ran.stdout + ran.stderr)
        self.assertEqual(self.command("hippo-lower", "ring.c", env=environment).returncode, 0)
        self.write("p.c", '#include <libpmem.h>\nint main(void) { return !pmem_map_file("p", 0, 0, 0, 0, 0); }\n')
        ran = self.command("hippo-c", "check", "p.c", "--pool", "p=4096", env=environment)
        self.assertEqual(ran.returncode, 0, ran.stdout + ran.stderr)
        kept = self.read("here/lib/hippo/about/version")
        self.assertEqual(
            self.command("hippo-c", "--version", env=environment).stdout, kept.replace("hippo ", "hippo-c ", 1)
        )
        self.assertEqual(self.command("hippo-lower", "--version", env=environment).stdout, f"lower {kept.split()[1]}\n")
        again = self.command("hippo-c", "install", "there", env=environment)
        self.assertEqual(again.returncode, 0, again.stderr)
        onto_itself = self.command("hippo-c", "install", "here", env=environment)
        self.assertEqual((onto_itself.returncode, onto_itself.stdout), (2, ""))
        self.assertIn("here is the installation that runs this command", onto_itself.stderr)
        self.assertEqual(self.command("hippo-lower", "ring.c", env=environment).returncode, 0)

    def test_what_is_no_program_is_refused(self) -> None:
        self.write("script", "#!/bin/sh\n")
        ran = self.hippo_c("install", "here", "--program", "script", code=2)
        self.assertIn("script is not a built program", ran.stderr)
        self.assertFalse(os.path.exists(self.path("here")))


class Built(Case):
    """Which program is a built one, for the tests that need it."""

    def test_the_proved_program_is_found_where_none_is_named(self) -> None:
        os.mkdir(self.path("out"))
        for named in ("", self.path("nowhere"), os.path.join(TOP, "hippo")):
            with mock.patch.object(common, "TOP", self.folder), mock.patch.dict(os.environ, HIPPO_PROGRAM=named):
                self.write("out/hippo", "#!/bin/sh\n")
                self.assertEqual(built_program(), "")
                self.write("out/hippo", "\x7fELF")
                self.assertEqual(built_program(), self.path("out/hippo"))

    def test_a_named_program_comes_first(self) -> None:
        self.write("named", "\x7fELF")
        with mock.patch.dict(os.environ, HIPPO_PROGRAM=self.path("named")):
            self.assertEqual(built_program(), self.path("named"))


class Version(Case):
    """The version of each program, and what is known of the proof."""

    def test_each_program_has_the_version_of_the_repository(self) -> None:
        with open(os.path.join(os.path.dirname(TOOLS), "VERSION"), encoding="utf-8") as file:
            version = file.read().strip()
        environment = {**os.environ, "HIPPO_PROGRAM": "/no/program"}
        ran = self.command(f"{TOOLS}/hippo-c", "--version", env=environment)
        first, *rest = ran.stdout.splitlines()
        self.assertEqual(
            (ran.returncode, first, rest[-1]),
            (0, f"hippo-c {version}", "proved: unknown, HIPPO_PROGRAM names /no/program"),
        )
        self.assertEqual([line.partition(":")[0] for line in rest], ["commit", "toolchain", "proved"])
        self.assertEqual(self.command(f"{TOOLS}/lower", "--version").stdout, f"lower {version}\n")

    def test_json_and_sarif_say_which_program_answered(self) -> None:
        self.write("a.c", "int main(void) { return 0; }\n")
        self.hippo_c("check", "a.c", "--json", "a.json", "--sarif", "a.sarif", code=0)
        answer, log = json.loads(self.read("a.json")), json.loads(self.read("a.sarif"))
        version = self.hippo_c("--version", code=0).stdout.split()[1]
        driver, properties = log["runs"][0]["tool"]["driver"], log["runs"][0]["properties"]
        self.assertEqual([answer["version"], driver["version"], driver["semanticVersion"]], [version] * 3)
        self.assertEqual(properties["program"], answer["program"])
        self.assertIn("proved", answer["program"])


class Doctor(Case):
    """What doctor finds on this machine, and on one without LLVM or without hippo."""

    def test_all_that_is_needed_is_here(self) -> None:
        ran = self.hippo_c("doctor", code=0)
        lines = ran.stdout.splitlines()
        self.assertRegex(lines[0], r"^ok: +Python 3\.\d+")
        self.assertRegex(lines[1], r"^ok: +clang-19 19\.\d+\.\d+, compiles the C$")
        self.assertRegex(lines[-1], r"^ok: +a first check, \d+\.\d s$")

    def test_what_is_missing_has_its_package(self) -> None:
        os.mkdir(self.path("bin"))
        os.symlink(sys.executable, self.path("bin/python3"))
        ran = self.hippo_c("doctor", code=2, env={**os.environ, "PATH": self.path("bin")})
        self.assertIn("missing:  opt-19, runs passes of LLVM; Debian: apt-get install llvm-19\n", ran.stdout)
        self.assertIn("optional: rr, crash --debug --rr; Debian: apt-get install rr\n", ran.stdout)
        self.assertNotIn("a first check", ran.stdout)

    def test_a_program_that_does_not_answer(self) -> None:
        self.write("hippo", '#!/bin/sh\necho "hippo: broken" >&2\nexit 3\n')
        os.chmod(self.path("hippo"), 0o755)
        ran = self.hippo_c("doctor", code=2, env={**os.environ, "HIPPO_PROGRAM": self.path("hippo")})
        self.assertRegex(ran.stdout, r"missing: +a first check, .* s; it did not find the missing flush: .*broken")
        ran = self.hippo_c("doctor", code=2, env={**os.environ, "HIPPO_PROGRAM": self.path("none")})
        self.assertIn("; HIPPO_PROGRAM names no program\n", ran.stdout)


class Words(Case):
    """Completions and manual pages have all options."""

    def test_completions(self) -> None:
        for name, text in completions.files(parser()).items():
            path = self.write(os.path.basename(name), text)
            shell = "zsh" if path.startswith("_") else "fish" if path.endswith(".fish") else "bash"
            if shutil.which(shell):
                self.assertEqual(self.command(shell, "-n", path).returncode, 0, name)
        for words, found in (
            ("check --veri", "--verify-fix"),
            ("ini", "init"),
            ("check --color ''", "auto always never"),
            ("check --color a", "auto always"),
            ("check --color = al", "always"),
            ("check --color =", "auto always never"),
            ("check hip", "hippo hippo-c hippo-c.fish hippo-lower"),
        ):
            script = f"source hippo-c; COMP_WORDS=(hippo-c {words}); COMP_CWORD=$((${{#COMP_WORDS[@]}} - 1)); _hippo_c"
            ran = self.command("bash", "-c", f'{script}; echo "${{COMPREPLY[*]}}"')
            self.assertEqual(sorted(ran.stdout.split()), sorted(found.split()), words)

    def test_the_manual_page_has_each_option(self) -> None:
        with open(f"{TOP}/docs/man/hippo-c.1", encoding="utf-8") as file:
            page = file.read().replace("\\-", "-")
        self.assertIn("\n.SH EXAMPLES\n", page)
        for command, one in completions.commands_of(parser()).items():
            self.assertIn(command, page)
            for option in completions.options_of(one):
                if option not in ("-h", "--help"):
                    self.assertRegex(page, rf'(?m)^\.B[IR]? "?{re.escape(option)}\b|{re.escape(option)}', command)


class Builds(Case):
    """The snippets, from a clean folder."""

    def setUp(self) -> None:
        """Writes a library, its driver, two inputs and the baseline of the library."""
        super().setUp()
        self.write("store.c", STORE % "  _mm_clwb(&kept);\n")
        self.write("driver.c", DRIVER)
        self.write("inputs", "7\n8\n")
        self.hippo_c("check", "store.c", "driver.c", "--inputs", "inputs", "--write-baseline", "baseline", code=1)

    def build(self, *words: str) -> tuple[int, str]:
        """The exit code and the output of a build with clang."""
        ran = self.command(*words, env={**os.environ, "CC": "clang-19"})
        return ran.returncode, ran.stdout + ran.stderr

    def prints(self, program: str) -> None:
        """The built program prints the number that it reads."""
        self.assertEqual(self.command("bash", "-c", f"echo 9 | {program}").stdout, "9\n")

    def test_make(self) -> None:
        self.write("Makefile", MAKEFILE.format(hippo_c=f"{TOOLS}/hippo-c", tools=TOOLS))
        code, text = self.build("make", "program")
        self.assertEqual(code, 0, text)
        self.prints("./program")
        self.write("store.c", STORE % "")
        code, text = self.build("make", "program")
        self.assertNotEqual(code, 0)
        self.assertIn("[missing-flush-and-fence]", text)

    @unittest.skipUnless(shutil.which("cmake"), "cmake is not installed")
    def test_cmake(self) -> None:
        self.write("CMakeLists.txt", CMAKE.format(tools=TOOLS))
        code, text = self.build("cmake", "-B", "out", f"-DHIPPO_C={TOOLS}/hippo-c")
        self.assertEqual(code, 0, text)
        code, text = self.build("cmake", "--build", "out")
        self.assertEqual(code, 0, text)
        self.prints("out/program")
        self.write("store.c", STORE % "")
        code, text = self.build("cmake", "--build", "out")
        self.assertNotEqual(code, 0)
        self.assertIn("[missing-flush-and-fence]", text)
