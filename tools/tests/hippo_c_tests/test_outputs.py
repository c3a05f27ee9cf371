"""The files that a command writes: none of the user's files is destroyed, and devices, pipes and links stay what they are."""
import contextlib
import json
import os
import stat
import sys
import threading
import unittest
from collections.abc import Iterator

from .common import TOOLS, Case

from hippo_c.command_line import parser
from hippo_c.trouble import Trouble
from hippo_c.outputs import check_outputs

FOUND = "#include <hippo.h>\nPERSISTENT long x;\nint main(void) { x = 1; pm_assert(&x, 8); return 0; }\n"
CLEAN = "#include <hippo.h>\nPERSISTENT long x;\nint main(void) { x = 1; _mm_clwb(&x); _mm_sfence(); return 0; }\n"
FORMS = ("--json", "--sarif", "--html", "--diff", "--write-baseline")
TEXT = "define i32 @main() {\nentry:\n  ret i32 0\n}\n"


@contextlib.contextmanager
def moved(folder: str) -> Iterator[None]:
    """Another current folder, for a while."""
    before = os.getcwd()
    os.chdir(folder)
    try:
        yield
    finally:
        os.chdir(before)


class Refused(Case):
    """Words by which a command would destroy a file are refused before anything starts."""

    def setUp(self) -> None:
        """Writes the files, and a program in place of hippo that must not run."""
        super().setUp()
        self.write("a.c", FOUND)
        self.write("clean.c", CLEAN)
        self.write("a.ll", TEXT)
        self.write("numbers", "1\n")
        self.write("hippo", "#!/bin/sh\ntouch started\nexit 7\n")
        os.chmod(self.path("hippo"), 0o755)
        self.environment = {**os.environ, "HIPPO_PROGRAM": self.path("hippo")}

    def unchanged(self, reason: str, *words: str) -> None:
        """The command refuses the words; no file has changed, and nothing has run."""
        before = self.contents()
        self.refused(reason, *words, env=self.environment)
        self.assertEqual(self.contents(), before, words)

    def contents(self) -> dict[str, bytes]:
        """The files in the folder with their contents."""
        found = {}
        for name in os.listdir(self.folder):
            with open(self.path(name), "rb") as file:
                found[name] = file.read()
        return found

    def rejects(self, reason: str, *words: str) -> None:
        """The words are refused by their form."""
        with moved(self.folder), self.assertRaises(Trouble) as refused:
            check_outputs(parser().parse_args(words))
        self.assertIn(reason, str(refused.exception), words)

    def test_each_command_refuses_before_it_starts(self) -> None:
        self.unchanged("--diff a.c: a name that ends in .c is that of a source", "check", "--diff", "a.c", "clean.c")
        self.unchanged(
            "--json numbers: the command reads this file", "check", "a.c", "--inputs", "numbers", "--json", "numbers"
        )
        self.unchanged("-o a.ll: the command reads this file", "repair", "a.ll", "-o", "a.ll")
        self.unchanged(
            "-o numbers: the command reads this file",
            "pool",
            "a.c",
            "--pool",
            "P=64",
            "--input-file",
            "numbers",
            "-o",
            "numbers",
        )
        self.unchanged(
            "--corpus numbers: the command reads this file",
            "explore",
            "a.c",
            "--inputs",
            "numbers",
            "--corpus",
            "numbers",
        )
        self.write("program.ll", TEXT)
        self.unchanged("--keep .: hippo-c writes a file program.ll there", "check", "program.ll", "--keep", ".")

    def test_an_output_that_is_an_input(self) -> None:
        os.symlink("a.c", self.path("link"))
        os.link(self.path("a.c"), self.path("second"))
        for word in FORMS:
            for name in ("link", "second", "./numbers"):
                self.rejects(
                    f"{word} {name}: the command reads this file", "check", "a.c", "--inputs", "numbers", word, name
                )
        self.rejects(
            "-o numbers: the command reads this file", "pool", "a.c", "--pool", "P=64,numbers", "-o", "numbers"
        )
        self.rejects(
            "--corpus numbers: the command reads this file",
            "explore",
            "a.c",
            "--merge",
            "numbers",
            "--corpus",
            "numbers",
        )
        self.rejects(
            "--write-baseline numbers: the command reads this file",
            "check",
            "a.c",
            "--baseline",
            "numbers",
            "--write-baseline",
            "numbers",
        )

    def test_an_output_that_is_another_output(self) -> None:
        self.write("out", "kept\n")
        os.symlink("out", self.path("link"))
        for words in (
            ("--html", "f", "--json", "./f"),
            ("--json", "out", "--sarif", "link"),
            ("--diff", "-", "--json", "-"),
        ):
            self.rejects("writes this file too", "check", "a.c", *words)

    def test_an_output_that_has_the_name_of_a_source(self) -> None:
        for ending in (".c", ".h", ".ll", ".cpp", ".hpp", ".s", ".inc"):
            for word in FORMS:
                self.rejects(
                    f"{word} new{ending}: a name that ends in {ending} is that of a source",
                    "check",
                    "a.c",
                    word,
                    f"new{ending}",
                )
        self.rejects(
            "--json hippo.toml: this is the name of the file of a project", "check", "a.c", "--json", "hippo.toml"
        )
        self.rejects("is that of a source", "repair", "a.c", "-o", "new.c")
        self.rejects("is that of a source", "pool", "a.c", "--pool", "P=64", "-o", "new.ll")

    def test_an_output_without_a_place(self) -> None:
        os.mkdir(self.path("folder"))
        self.rejects("--json folder: Is a directory", "check", "a.c", "--json", "folder")
        self.rejects("--json none/a: No such file or directory", "check", "a.c", "--json", "none/a")
        self.rejects("--json numbers/a: Not a directory", "check", "a.c", "--json", "numbers/a")

    def test_what_is_no_conflict(self) -> None:
        for words in (
            ("check", "a.c", "--json", "/dev/null", "--sarif", "/dev/null"),
            ("repair", "a.c", "-o", "b.ll", "--keep", "."),
            (
                "check",
                "a.c",
                "--json",
                "a.json",
                "--sarif",
                "a.sarif",
                "--html",
                "a.html",
                "--diff",
                "a.diff",
                "--baseline",
                "numbers",
            ),
            ("explore", "a.c", "--corpus", "c", "--inputs", "numbers"),
            ("check", "a.ll", "--keep", ".", "--json", "-"),
        ):
            with moved(self.folder):
                check_outputs(parser().parse_args(words))

    def test_a_folder_to_keep_files_that_holds_one_of_the_command(self) -> None:
        self.rejects(
            "--keep .: hippo-c writes a file repaired.ll there", "repair", "a.c", "-o", "repaired.ll", "--keep", "."
        )
        self.rejects(
            "hippo-c writes a file program.2.trace there",
            "check",
            "a.c",
            "--json",
            "program.2.trace",
            "--keep",
            f"../{os.path.basename(self.folder)}",
        )


class Kinds(Case):
    """Outputs that are no regular files."""

    def setUp(self) -> None:
        """Writes the program."""
        super().setUp()
        self.write("a.c", FOUND)

    def test_a_link_stays_and_its_target_is_written(self) -> None:
        self.write("target", "old\n")
        os.symlink("target", self.path("link"))
        os.symlink("new", self.path("to-nothing"))
        self.hippo_c("check", "a.c", "--json", "link", "--sarif", "to-nothing", code=1)
        self.assertEqual((os.readlink(self.path("link")), os.readlink(self.path("to-nothing"))), ("target", "new"))
        self.assertEqual(json.loads(self.read("target"))["files"], ["a.c"])
        self.assertEqual(json.loads(self.read("new"))["version"], "2.1.0")

    def test_a_pipe_stays_and_its_reader_gets_all(self) -> None:
        os.mkfifo(self.path("pipe"))
        got: list[str] = []
        reader = threading.Thread(target=lambda: got.append(self.read("pipe")), daemon=True)
        reader.start()
        self.hippo_c("check", "a.c", "--json", "pipe", code=1)
        reader.join(60)
        self.assertTrue(stat.S_ISFIFO(os.stat(self.path("pipe")).st_mode))
        self.assertEqual(json.loads(got[0])["files"], ["a.c"])

    @unittest.skipUnless(os.geteuid() == 0, "only root makes a device")
    def test_a_device_stays(self) -> None:
        try:
            os.mknod(self.path("null"), 0o666 | stat.S_IFCHR, os.makedev(1, 3))
            os.close(os.open(self.path("null"), os.O_WRONLY))
        except OSError as error:
            self.skipTest(f"no device can be made here: {error.strerror}")
        self.hippo_c("check", "a.c", "--json", "null", "--sarif", "null", "--write-baseline", "null", code=1)
        self.assertTrue(stat.S_ISCHR(os.stat(self.path("null")).st_mode))

    def test_a_full_device_is_an_error(self) -> None:
        self.refused("/dev/full: No space left on device", "check", "a.c", "--no-coverage", "--json", "/dev/full")

    def test_standard_output_by_its_name_as_a_device(self) -> None:
        with open(self.path("out"), "w", encoding="utf-8") as out:
            self.hippo_c("check", "a.c", "--no-coverage", "--sarif", "/dev/stdout", code=1, stdout=out)
        text = self.read("out")
        log, end = json.JSONDecoder().raw_decode(text)
        self.assertEqual(log["version"], "2.1.0")
        self.assertIn("2 reports in 1 group", text[end:])

    def test_the_substitution_of_a_shell(self) -> None:
        ran = self.command(
            "bash", "-c", f"{sys.executable} {TOOLS}/hippo-c check a.c --json >(cat >copy); wait $!; exit 0"
        )
        self.assertEqual(ran.returncode, 0, ran.stderr)
        self.assertEqual(json.loads(self.read("copy"))["files"], ["a.c"], ran.stderr)

    def test_permissions_stay(self) -> None:
        self.write("private", "old\n")
        os.chmod(self.path("private"), 0o640)
        self.command("sh", "-c", f"umask 027; {sys.executable} {TOOLS}/hippo-c check a.c --json private --sarif new")
        modes = [stat.S_IMODE(os.stat(self.path(name)).st_mode) for name in ("private", "new")]
        self.assertEqual([f"{mode:o}" for mode in modes], ["640", "640"])
