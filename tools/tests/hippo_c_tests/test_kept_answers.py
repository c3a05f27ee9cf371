"""A kept text gives the answer that a new one would give, and only what changed is compiled."""
from __future__ import annotations

import subprocess
import sys
import unittest

from .common import TOOLS, built_program
from .test_kept_texts import Texts


@unittest.skipUnless(built_program(), "hippo is not built")
class Answers(Texts):
    """Whole commands."""

    def checked(self, *words: str, code: int) -> str:
        """What a check prints."""
        return self.hippo_c("check", *words, code=code, env=self.environment).stdout

    def test_a_second_check(self) -> None:
        """It compiles nothing and answers the same; after an edit of the header or of the bytes of a pool the answer is the new one."""
        self.set("a.h", "#define FLUSH(n) (_mm_clwb(&n), _mm_sfence())\n")
        self.set(
            "a.c",
            '#include <hippo.h>\n#include "a.h"\nPERSISTENT long n;\nint main(void) { n = 1; FLUSH(n); return 0; }\n',
        )
        first, made = self.checked("a.c", code=0), self.compiled()
        self.assertEqual(self.checked("a.c", code=0), first)
        self.assertEqual(self.compiled(), made)
        self.set("a.h", "#define FLUSH(n) _mm_sfence()\n")
        self.assertIn("missing-flush", self.checked("a.c", code=1))
        self.set("a.h", "#define FLUSH(n) (_mm_clwb(&n), _mm_sfence())\n")
        self.assertEqual(self.checked("a.c", code=0), first)

    def test_the_headers_of_the_runtime(self) -> None:
        """A text is kept from the first call on, also where the runtime's modules are made or taken, and knows the headers that these read."""
        words, environment = ["run", "a.c"], {**self.environment, "CPATH": self.path("place")}
        self.set("place/p.h", "")
        self.set(
            "a.c", "#include <hippo.h>\nlong lrand48(void);\nint main(void) { print_i64(lrand48() * 0); return 0; }\n"
        )
        self.hippo_c(*words, code=0, env=environment)
        made = self.compiled()
        self.hippo_c(*words, code=0, env=environment)
        self.assertEqual(self.compiled(), made, "the text was not kept")
        self.set("a.c", self.read("a.c") + "// another text, and the same modules of the runtime\n")
        self.hippo_c(*words, code=0, env=environment)
        self.assertEqual(self.compiled(), made + 1, "a module of the runtime was not kept")
        self.set("place/stdlib.h", "#include_next <stdlib.h>\n#define lrand48 other_name\n")
        ran = self.hippo_c(*words, code=2, env=environment)
        self.assertIn("lrand48", ran.stderr)

    def test_only_what_changed_is_compiled(self) -> None:
        """Of two files the one that was edited, or whose header was; the kept module is as good as a new one."""
        self.set("a.h", "enum { A = 1 };\n")
        self.set("a.c", '#include "a.h"\nlong own(void) { return A; }\n')
        self.set("b.c", "#include <hippo.h>\nlong own(void);\nint main(void) { print_i64(own()); return 0; }\n")
        words = ["run", "b.c", "a.c"]
        self.assertEqual(self.hippo_c(*words, code=0, env=self.environment).stdout, "1\n")
        for name, text, found in (
            ("a.c", '#include "a.h"\nlong own(void) { return A + 1; }\n', "2\n"),
            ("a.h", "enum { A = 5 };\n", "6\n"),
        ):
            made = self.compiled()
            self.set(name, text)
            self.assertEqual(self.hippo_c(*words, code=0, env=self.environment).stdout, found)
            self.assertEqual(self.compiled(), made + 1, name)

    def test_a_word_that_is_no_language(self) -> None:
        """A folder has the name of clang's word for LLVM's text."""
        self.set("ir/a.h", "enum { N = 1 };\n")
        self.set("a.c", "#include <a.h>\n#include <hippo.h>\nint main(void) { print_i64(N); return 0; }\n")
        for number in ("1", "2"):
            self.set("ir/a.h", f"enum {{ N = {number} }};\n")
            for _ in range(2):
                ran = self.hippo_c("run", "a.c", "--", "-I", "ir", code=0, env=self.environment)
                self.assertEqual(ran.stdout.split(), [number])

    def test_the_bytes_of_a_pool(self) -> None:
        """They are a part of the text."""
        self.set(
            "a.c",
            "#include <hippo.h>\n#include <libpmem.h>\nint main(void) {\n  size_t n; int is;\n"
            '  char *p = pmem_map_file("p", 0, 0, 0, &n, &is);\n  if (*p == 1) p[64] = 2;\n  return 0;\n}\n',
        )
        words = ["a.c", "--pool", "p=4096,p.pool"]
        self.set("p.pool", "\0" * 4096)
        self.set(
            "libpmem.h",
            "#include <stddef.h>\nvoid *pmem_map_file(const char *, size_t, int, unsigned, size_t *, int *);\n",
        )
        words += ["--", "-I."]
        self.checked(*words, code=0)
        self.set("p.pool", "\1" + "\0" * 4095)
        self.assertIn("missing-flush", self.checked(*words, code=1))

    def test_calls_at_once(self) -> None:
        """Each answers as if it were alone."""
        self.set("a.c", "#include <hippo.h>\nPERSISTENT long n;\nint main(void) { n = 1; return 0; }\n")
        command = [sys.executable, f"{TOOLS}/hippo-c", "check", "a.c"]
        for _ in range(2):
            calls = [
                subprocess.Popen(command, cwd=self.folder, env=self.environment, stdout=subprocess.PIPE, text=True)
                for _ in range(3)
            ]
            answers = {(call.communicate()[0], call.returncode) for call in calls}
            self.assertEqual(len(answers), 1)
            self.assertEqual(answers.pop()[1], 1)
