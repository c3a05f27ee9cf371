"""Modules of C files before they are linked: `--wrap`, and the folder of `--cache`."""
import os
import shutil
import subprocess
import tempfile
import unittest

from clang_case import TOOLS, ClangCase

FILES = {
    "main.c": '#include "head.h"\nint get(int);\nint twice(int);\nint main(void) { return get(NUMBER) + twice(1); }\n',
    "other.c": "int get(int n) { return n + 1; }\nint twice(int n) { return get(n) + get(n); }\n",
    "mock.c": "int __real_get(int);\nint __wrap_get(int n) { return __real_get(n) * 10; }\n",
    "head.h": "#define NUMBER 3\n",
}


class Modules(ClangCase):
    """Programs of several files."""

    def setUp(self) -> None:
        """Writes the files."""
        room = tempfile.TemporaryDirectory()
        self.addCleanup(room.cleanup)
        self.folder = room.name
        for name, text in FILES.items():
            self.write(name, text)

    def write(self, name: str, text: str) -> None:
        """Writes a file."""
        with open(f"{self.folder}/{name}", "w", encoding="ascii") as file:
            file.write(text)

    def answer(self, *words: str, tools: str = os.environ["PATH"]) -> int:
        """What main returns, of a lowered program."""
        done = subprocess.run(
            [os.path.join(TOOLS, "lower"), *words],
            cwd=self.folder,
            capture_output=True,
            encoding="latin-1",
            check=True,
            env={**os.environ, "PATH": tools},
        )
        self.write("lowered.ll", done.stdout)
        return subprocess.run(["lli-19", f"{self.folder}/lowered.ll"], check=False).returncode

    def test_wrap(self) -> None:
        """The call in main.c goes to the mock, those in the file that defines the function do not."""
        files = ["main.c", "other.c", "mock.c"]
        subprocess.run(["clang-19", "-Wl,--wrap=get", "-o", "native", *files], cwd=self.folder, check=True)
        expected = subprocess.run([f"{self.folder}/native"], check=False).returncode
        self.assertEqual(expected, 44)
        self.assertEqual(self.answer("--wrap", "get", *files), expected)
        self.write("more.c", "int __wrap_twice(int n) { return n + 100; }\n")
        self.assertEqual(self.answer("--wrap", "twice", "--wrap", "get", *files, "more.c"), 141)

    def test_cache(self) -> None:
        """A file is compiled again if it or one of its headers has changed, or the arguments have; otherwise clang does not compile it."""
        words = ["--cache", "kept", "main.c", "other.c"]
        self.assertEqual(self.answer(*words), 8)
        self.assertEqual(len(os.listdir(f"{self.folder}/kept")), 2)
        self.assertEqual(self.answer(*words, tools=self.without_compiler()), 8)
        self.write("head.h", "#define NUMBER 20\n")
        self.assertEqual(self.answer(*words), 25)
        self.write("other.c", FILES["other.c"].replace("n + 1", "n + 2"))
        self.assertEqual(self.answer(*words), 28)
        self.assertEqual(len(os.listdir(f"{self.folder}/kept")), 4)
        self.assertEqual(self.answer(*words, "--", "-DNUMBER=1", "-Wno-macro-redefined"), 28)
        self.assertEqual(len(os.listdir(f"{self.folder}/kept")), 6)
        for name in os.listdir(f"{self.folder}/kept"):
            self.write(f"kept/{name}", "damaged")
        self.assertEqual(self.answer(*words), 28)

    def test_files_that_call_no_inline_function_are_compiled_once(self) -> None:
        """For a body that no file defines, clang reads the one file again that calls the function."""
        self.write("calls.c", "inline int twice(int n) { return n + n; }\nint get(int n) { return twice(n); }\n")
        self.write("use.c", "int get(int n);\nint main(void) { return get(4); }\n")
        self.write("clang-19", f'#!/bin/sh\necho "$@" >>log\nexec {shutil.which("clang-19")} "$@"\n')
        os.chmod(f"{self.folder}/clang-19", 0o700)
        self.assertEqual(self.answer("use.c", "calls.c", tools=f"{self.folder}:{os.environ['PATH']}"), 8)
        with open(f"{self.folder}/log", encoding="utf-8") as file:
            log = [line.split() for line in file]
        self.assertEqual([sum(name in words for words in log) for name in ("use.c", "calls.c")], [1, 2])

    def test_a_header_that_hides_another_one(self) -> None:
        """No file that clang read has changed, but another file of that name now comes first."""
        for name in ("first", "second"):
            os.mkdir(f"{self.folder}/{name}")
        self.write("main.c", "#include <place.h>\nint main(void) { return PLACE; }\n")
        self.write("second/place.h", "#define PLACE 2\n")
        words = ["--cache", "kept", "main.c", "--", "-Ifirst", "-Isecond"]
        self.assertEqual(self.answer(*words), 2)
        self.write("first/place.h", "#define PLACE 1\n")
        self.assertEqual(self.answer(*words), 1)

    def test_a_comment_moves_the_places(self) -> None:
        """The preprocessor leaves out a comment, on which the columns of places depend."""
        self.write("main.c", "int get(int);\nint main(void) { return get(1); }\n")
        words = [os.path.join(TOOLS, "lower"), "--lines", "--cache", "kept", "main.c", "other.c"]
        texts = []
        for text in ("/**/", "/*    */"):
            self.write("main.c", f"int get(int);\nint main(void) {{ {text} return get(1); }}\n")
            texts.append(subprocess.run(words, cwd=self.folder, capture_output=True, check=True).stdout)
        self.assertIn(b" ; main.c:2:30", texts[0])
        self.assertIn(b" ; main.c:2:34", texts[1])

    def without_compiler(self) -> str:
        """A path of programs on which clang-19 only preprocesses and says its version."""
        os.makedirs(f"{self.folder}/bin", exist_ok=True)
        self.write(
            "bin/clang-19",
            f'#!/bin/sh\ncase " $* " in " --version "|*" -E "*) PATH="{os.environ["PATH"]}" exec clang-19 "$@" ;; esac\nexit 9\n',
        )
        os.chmod(f"{self.folder}/bin/clang-19", 0o755)
        return f'{self.folder}/bin:{os.environ["PATH"]}'


if __name__ == "__main__":
    unittest.main()
