#!/usr/bin/env python3
"""The runtime's modules are compiled once: an entry of the cache is taken while nothing that clang read has changed, and only then."""
import glob
import json
import os
import subprocess
import sys
import unittest
from typing import Any

from clang_case import TOOLS, ClangCase

sys.path.insert(0, TOOLS)
from lowering.reads import read_list  # noqa: E402
from lowering.module_cache import digest, head_of  # noqa: E402

PROGRAM = "#include <hippo.h>\n#include <stdlib.h>\nint main(void) { print_i64(lrand48()); return 0; }\n"


class Cache(ClangCase):
    """A program that needs a small file of the runtime."""

    def setUp(self) -> None:
        self.file, self.home = os.path.join(self.folder, "small.c"), os.path.join(self.folder, self.id())
        with open(self.file, "w", encoding="utf-8") as out:
            out.write(PROGRAM)

    def lowered(self, home: str = "") -> str:
        """The lowered text, with the cache below a folder."""
        environment = {**os.environ, "XDG_CACHE_HOME": home or self.home}
        done = subprocess.run(
            [sys.executable, os.path.join(TOOLS, "lower"), self.file],
            capture_output=True,
            encoding="latin-1",
            check=False,
            env=environment,
        )
        self.assertEqual(done.returncode, 0, done.stderr)
        return done.stdout

    def entry(self) -> tuple[str, dict[str, Any], str]:
        """The path, the head and the text of the entry of the function."""
        for path in glob.glob(f"{self.home}/hippo-c/runtime/*"):
            with open(path, encoding="latin-1") as file:
                head, _, text = file.read().partition("\n")
            if " i64 @lrand48() " in text:
                return path, json.loads(head), text
        raise AssertionError("the cache has no entry of the function")

    def write(self, path: str, head: dict[str, Any], text: str) -> None:
        """Writes an entry."""
        with open(path, "w", encoding="latin-1") as file:
            file.write(json.dumps({**head, "digest": digest(head_of({}) + text)}) + "\n" + text)

    def test_an_entry_is_taken(self) -> None:
        """The second command takes the module of the first: here it has another function, which shows."""
        first = self.lowered()
        path, head, text = self.entry()
        self.assertEqual(self.lowered(), first)
        self.assertIn("@hippo.lrand48(", first)
        other = text.replace("@lrand48(", "@of_cache(") + "define i64 @lrand48() {\n  ret i64 77\n}\n"
        self.write(path, head, other)
        self.assertIn("ret i64 77", self.lowered())
        os.chmod(os.path.dirname(path), 0o777)  # then others may have written it
        self.assertEqual(self.lowered(), first)

    def test_an_entry_of_other_files_is_not_taken(self) -> None:
        """A file, what stands in a folder, or the entry itself has changed since."""
        first = self.lowered()
        path, head, text = self.entry()
        wrong = text.replace(" i64 @lrand48() ", "@wrong(")
        files, *rest = head["state"]
        header = next(name for name in files if name.endswith("stdlib.h"))
        self.assertIn("/usr/include", rest[1])
        for state in ([{**files, header: "of another content"}, *rest], [files, *rest[:2], "of other files"]):
            self.write(path, {**head, "state": state}, wrong)
            self.assertEqual(self.lowered(), first)
        for broken in ("", "{}\n" + wrong, json.dumps(head) + "\n" + wrong):
            with open(path, "w", encoding="latin-1") as file:
                file.write(broken)
            self.assertEqual(self.lowered(), first, broken[:20])
        self.assertEqual(self.entry()[2], text)

    def test_a_folder_that_cannot_be_written(self) -> None:
        """Each command compiles the runtime then."""
        self.assertEqual(self.lowered("/dev/null"), self.lowered())

    def test_names_in_a_rule(self) -> None:
        """Blanks and dollars in names of files."""
        rule = os.path.join(self.folder, "rule.d")
        with open(rule, "w", encoding="utf-8") as out:
            out.write("-: /a\\ b.c \\\n  /c$$.h\n")
        self.assertEqual(read_list(rule), ["/a b.c", "/c$.h"])


if __name__ == "__main__":
    unittest.main()
