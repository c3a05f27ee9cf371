"""What clang and tools/lower made is taken again only where they would make the same: each change makes it anew."""
from __future__ import annotations

import glob
import os
import shutil
import sys
import time

from .common import TOOLS, Case

PROGRAM = """import sys
sys.path.insert(0, {tools!r})
from hippo_c import kept_texts
{statement}
"""
EMIT = ["clang-19", "-S", "-emit-llvm", "-w"]
# A wrapper of clang that notes each call which compiles.
NOTING = '#!/bin/sh\ncase " $* " in *" -E "*) ;; *) echo "$*" >>"{log}" ;; esac\nexec {clang} "$@"\n'


class Texts(Case):
    """A folder with a cache of its own, and a clang that notes what it compiles."""

    def setUp(self) -> None:
        """Makes the cache and the clang."""
        super().setUp()
        os.mkdir(self.path("bin"))
        for name in ("clang-19", "clang++-19"):
            self.write(f"bin/{name}", NOTING.format(log=self.path("log"), clang=shutil.which(name)))
            os.chmod(self.path(f"bin/{name}"), 0o755)
        self.environment = {
            **os.environ,
            "PATH": f'{self.path("bin")}:{os.environ["PATH"]}',
            "XDG_CACHE_HOME": self.path("cache"),
        }

    def set(self, name: str, text: str, age: float = 1000.0) -> None:
        """Writes a file that is not young: its times are those of a while ago, and a moment passes."""
        os.makedirs(os.path.dirname(self.path(name)) or ".", exist_ok=True)
        self.write(name, text)
        os.utime(self.path(name), (time.time() - age, time.time() - age))
        time.sleep(0.25)

    def compiled(self) -> int:
        """How often clang has compiled a file."""
        return len(self.read("log").splitlines()) if os.path.exists(self.path("log")) else 0

    def python(self, statement: str, tools: str = TOOLS, **more: str) -> str:
        """What a statement of Python prints."""
        ran = self.command(
            sys.executable,
            "-B",
            "-c",
            PROGRAM.format(tools=tools, statement=statement),
            env={**self.environment, **more},
        )
        self.assertEqual((ran.returncode, ran.stderr), (0, ""))
        return ran.stdout

    def text(self, *words: str, file: str = "a.c", **more: str) -> str:
        """The text of a file, kept or made."""
        command = [*EMIT, *words, "-o", "-", file]
        return self.python(f'print(kept_texts.output_of({command!r}).decode("latin-1"))', **more)

    def is_kept(self, *words: str, **more: str) -> str:
        """The text of a file, which clang compiles once for two calls."""
        before = self.compiled()
        first = self.text(*words, **more)
        self.assertEqual(self.compiled(), before + 1)
        self.assertEqual(self.text(*words, **more), first)
        self.assertEqual(self.compiled(), before + 1, "the text was not kept")
        return first

    def is_never_kept(self, *words: str, **more: str) -> None:
        """Clang compiles a file each time."""
        before = self.compiled()
        for _ in range(2):
            self.text(*words, **more)
        self.assertEqual(self.compiled(), before + 2)

    def is_made_anew(self, *words: str, **more: str) -> str:
        """The text of a file that clang compiles again."""
        before = self.compiled()
        text = self.text(*words, **more)
        self.assertEqual(self.compiled(), before + 1, "a kept text was taken")
        return text


class Changes(Texts):
    """Changes of what clang reads."""

    def test_a_source_of_the_same_size_and_time(self) -> None:
        """The digest of its content counts."""
        self.set("a.c", "int n = 1;\n")
        self.assertIn("i32 1", self.is_kept())
        state = os.stat(self.path("a.c"))
        self.write("a.c", "int n = 2;\n")
        os.utime(self.path("a.c"), ns=(state.st_atime_ns, state.st_mtime_ns))
        self.assertIn("i32 2", self.is_made_anew())

    def test_a_header(self) -> None:
        """A header of a header counts."""
        self.set("b.h", "enum { N = 1 };\n")
        self.set("a.h", '#include "b.h"\n')
        self.set("a.c", '#include "a.h"\nint n = N;\n')
        self.assertIn("i32 1", self.is_kept())
        self.set("b.h", "enum { N = 2 };\n")
        self.assertIn("i32 2", self.is_made_anew())

    def test_a_header_that_hides_another(self) -> None:
        """In a folder that is searched earlier, which was not there; beside the source; in a folder of a folder."""
        self.set("second/sub/p.h", "enum { N = 2 };\n")
        self.set("second/q.h", "enum { M = 20 };\n")
        self.set("a.c", '#include <sub/p.h>\n#include "q.h"\nint n = N + M;\n')
        words = ["-Ifirst", "-Isecond"]
        self.assertIn("i32 22", self.is_kept(*words))
        self.set("first/sub/p.h", "enum { N = 1 };\n")
        self.assertIn("i32 21", self.is_made_anew(*words))
        self.is_kept(*words, "-DAGAIN")
        self.set("q.h", "enum { M = 10 };\n")
        self.assertIn("i32 11", self.is_made_anew(*words, "-DAGAIN"))

    def test_a_header_that_is_asked_for(self) -> None:
        """`__has_include` finds a file that was not there."""
        self.set("a.c", '#if __has_include("maybe.h")\nint n = 1;\n#else\nint n = 2;\n#endif\n')
        self.assertIn("i32 2", self.is_kept())
        self.set("maybe.h", "")
        self.assertIn("i32 1", self.is_made_anew())

    def test_a_header_that_is_gone(self) -> None:
        """Then the next one of its name counts."""
        self.set("first/p.h", "enum { N = 1 };\n")
        self.set("second/p.h", "enum { N = 2 };\n")
        self.set("a.c", "#include <p.h>\nint n = N;\n")
        self.assertIn("i32 1", self.is_kept("-Ifirst", "-Isecond"))
        os.unlink(self.path("first/p.h"))
        self.assertIn("i32 2", self.is_made_anew("-Ifirst", "-Isecond"))

    def test_a_header_that_a_word_includes(self) -> None:
        """`-include` names a file."""
        self.set("a.h", "enum { N = 1 };\n")
        self.set("a.c", "int n = N;\n")
        self.assertIn("i32 1", self.is_kept("-include", "a.h"))
        self.set("a.h", "enum { N = 2 };\n")
        self.assertIn("i32 2", self.is_made_anew("-include", "a.h"))

    def test_words_environment_folder_and_clang(self) -> None:
        """Each is a part of the key."""
        self.set("a.c", "#include <p.h>\nint n = N;\n")
        for number in (1, 2):
            self.set(f"place{number}/p.h", f"enum {{ N = {number} }};\n")
        self.assertIn("i32 1", self.is_kept("-Iplace1"))
        self.assertIn("i32 2", self.is_made_anew("-Iplace2"))
        self.assertIn("i32 1", self.is_kept(CPATH=self.path("place1")))
        self.assertIn("i32 2", self.is_made_anew(CPATH=self.path("place2")))
        os.utime(self.path("bin/clang-19"))
        self.is_made_anew("-Iplace1")


class NotKept(Texts):
    """Texts whose reasons are not known are made each time."""

    def test_the_time_and_computed_names(self) -> None:
        """A text with the time, and an include whose name a macro makes."""
        self.set("a.c", "const char *n = __TIME__;\n")
        self.is_never_kept()
        self.set("p.h", "enum { N = 1 };\n")
        self.set("a.c", '#define HEAD "p.h"\n#include HEAD\nint n = N;\n')
        self.is_never_kept()
        self.set("a.c", "#define HEAD <p.h>\n#if __has_include(HEAD)\n#endif\nint n;\n")
        self.is_never_kept()

    def test_words_that_are_not_known(self) -> None:
        """Words that may name files to read."""
        self.set("a.c", "int n;\n")
        self.set("words", "-DX\n")
        self.is_never_kept("@words")
        self.is_never_kept("-Wp,-DX")
        self.is_never_kept("-fmodules")

    def test_a_young_file(self) -> None:
        """It may have changed while clang ran."""
        self.write("a.c", "int n;\n")
        os.utime(self.path("a.c"), (time.time() + 100, time.time() + 100))
        self.is_never_kept()

    def test_off(self) -> None:
        """The user may say so."""
        self.set("a.c", "int n;\n")
        self.is_never_kept(HIPPO_CACHE="off")
        self.assertFalse(os.path.exists(self.path("cache/hippo-c/texts")))

    def test_errors(self) -> None:
        """What fails is not kept."""
        self.set("a.c", "int n = ;\n")
        self.is_never_kept()

    def test_damage_and_strangers(self) -> None:
        """A damaged file, and a folder that others may write, are not used."""
        self.set("a.c", "int n = 1;\n")
        good = self.is_kept()
        (path,) = glob.glob(self.path("cache/hippo-c/texts/*"))
        for number in range(3):
            with open(path, "rb") as file:
                content = file.read()
            with open(path, "wb") as file:
                file.write((content[:-3], content.replace(b"i32 1", b"i32 2"), b"{}\n")[number])
            self.assertEqual(self.is_made_anew(), good)
        os.chmod(os.path.dirname(path), 0o777)
        self.is_made_anew()


class Tools(Texts):
    """Changes of the tools themselves."""

    def test_a_changed_tool(self) -> None:
        """The lowering, the runtime and the header are a part of the key."""
        copy = self.path("tools")
        shutil.copytree(TOOLS, copy, ignore=shutil.ignore_patterns("__pycache__", "tests"))
        seen = {self.python("print(kept_texts.identity())", copy)}
        for name in ("lowering/floats.py", "hippo_c/running.py", "runtime/heap.c", "hippo.h"):
            with open(f"{copy}/{name}", "a", encoding="utf-8") as file:
                file.write("\n")
            seen.add(self.python("print(kept_texts.identity())", copy))
        self.assertEqual(len(seen), 5)
