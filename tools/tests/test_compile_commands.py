"""Arguments of clang by file: two files read different headers of one name."""
import json
import os
import subprocess
import tempfile
import unittest

from clang_case import TOOLS, ClangCase
from typing import Any


class CompileCommands(ClangCase):
    """Programs of two files with a `compile_commands.json`."""

    def setUp(self) -> None:
        """Two files, each with a header `map.h` of its own."""
        room = tempfile.TemporaryDirectory()
        self.addCleanup(room.cleanup)
        self.folder = room.name
        for name, text in {
            "left/map.h": "#define NUMBER 3\n",
            "right/map.h": "#define NUMBER 40\n",
            "left.c": '#include "map.h"\nint left(void) { return NUMBER + MORE; }\n',
            "main.c": "#include <map.h>\nint left(void);\nint main(void) { return left() + NUMBER + (int)sizeof(enum {small}) + (char)200; }\n",
        }.items():
            os.makedirs(os.path.dirname(f"{self.folder}/{name}"), exist_ok=True)
            with open(f"{self.folder}/{name}", "w", encoding="ascii") as file:
                file.write(text)

    def commands(self, entries: object) -> str:
        """The file of a list of commands."""
        path = f"{self.folder}/compile_commands.json"
        with open(path, "w", encoding="ascii") as file:
            file.write(entries if isinstance(entries, str) else json.dumps(entries))
        return path

    def entries(self) -> list[dict[str, Any]]:
        """The commands of both files, in both forms."""
        return [
            {
                "directory": self.folder,
                "file": "left.c",
                "output": "left.o",
                "command": 'cc -I left -DMORE="(2 * 2)" -O3 -Wall -Werror -flto -MD -MF left.d -march=native -c -o left.o left.c',
            },
            {
                "directory": f"{self.folder}/right",
                "file": "../main.c",
                "arguments": [
                    "gcc",
                    "-isystem",
                    ".",
                    "-std=gnu11",
                    "-fshort-enums",
                    "-funsigned-char",
                    "-g",
                    "-c",
                    "../main.c",
                ],
            },
        ]

    def lower(self, path: str) -> subprocess.CompletedProcess[str]:
        """Runs tools/lower on both files."""
        words = [
            os.path.join(TOOLS, "lower"),
            "--compile-commands",
            path,
            f"{self.folder}/main.c",
            f"{self.folder}/left.c",
        ]
        return subprocess.run(words, capture_output=True, encoding="latin-1", check=False)

    def test_each_file_has_its_own(self) -> None:
        done = self.lower(self.commands(self.entries()))
        self.assertEqual(done.returncode, 0, done.stderr)
        path = f"{self.folder}/lowered.ll"
        with open(path, "w", encoding="latin-1") as file:
            file.write(done.stdout)
        answer = subprocess.run(["lli-19", path], check=False).returncode
        self.assertEqual(answer, (3 + 4 + 40 + 1 + 200) % 256)

    def test_an_included_file_is_searched(self) -> None:
        """`-include` names a file of the folder, or one that clang finds in the folders of headers."""
        with open(f"{self.folder}/main.c", "w", encoding="ascii") as file:
            file.write("int left(void);\nint main(void) { return NUMBER + left(); }\n")
        entries = self.entries()
        for name, folder in (("map.h", "."), ("left/map.h", "right")):
            entries[1] = {
                "directory": self.folder,
                "file": "main.c",
                "command": f"cc -I{folder} -Ileft -include {name} -c main.c",
            }
            done = self.lower(self.commands(entries))
            self.assertEqual(done.returncode, 0, done.stderr)
            self.assertRegex(done.stdout, r"add i32 %\S+, 3|add i32 3, ")

    def test_bad_lists(self) -> None:
        entries = self.entries()
        for given, code, said in (
            (entries[:1], 1, f"{self.folder}/main.c is not in"),
            ('{"a": 1}', 1, "compile_commands.json:1: not a list of commands"),
            (
                '[{"file": "left.c"}]',
                1,
                "compile_commands.json:1: no command with a directory, a file, and its arguments",
            ),
            ('[\n{"file": "left.c", "command": "cc \\"x"}]', 1, "compile_commands.json:2: no command with"),
            ("[", 1, "compile_commands.json:1: Expecting value"),
            ('[\n{"file": "left.c",\n "command" "cc"}]', 1, "compile_commands.json:3: Expecting ':' delimiter"),
            (
                '[\n{"file": "left.c",\n "command": "cc"}\n\n x]',
                1,
                "compile_commands.json:5: neither a comma nor the end of",
            ),
        ):
            done = self.lower(self.commands(given))
            self.assertEqual((done.returncode, done.stdout), (code, ""), given)
            self.assertIn(said, done.stderr)
        done = self.lower(f"{self.folder}/none.json")
        self.assertEqual((done.returncode, done.stderr), (2, f"lower: no file: {self.folder}/none.json\n"))


if __name__ == "__main__":
    unittest.main()
