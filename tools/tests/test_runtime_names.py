"""The names by which tools/lower finds the files of the runtime: each name that a C file defines for others is among them, and what a
C++ file says that it provides, it defines."""
import glob
import os
import re
import sys
import unittest
from concurrent.futures import ThreadPoolExecutor

from clang_case import TOOLS, ClangCase
from comparing import output_of

sys.path.insert(0, TOOLS)

from lowering.before_passes import changed  # noqa: E402
from lowering.languages import FLAGS, compiler, is_cpp  # noqa: E402
from lowering.runtime import OF_CPP, RUNTIME, RUNTIME_FLAGS, names_at_line_starts, provides, read  # noqa: E402

DEFINED = re.compile(r"^(?:define ([^@\n]*)@([-\w.$]+)\(|@([-\w.$]+) = ([^\n=]*?)(?:global|constant) )", re.M)
HIDDEN = re.compile(r"\b(?:internal|private|external)\b")


class Names(ClangCase):
    """Each file, compiled by itself."""

    @staticmethod
    def defined(file: str) -> set[str]:
        """The names that a file defines for others."""
        more = OF_CPP if is_cpp(file) else RUNTIME_FLAGS
        command = [*compiler(file), *FLAGS, *more, f"-I{TOOLS}", f"-I{RUNTIME}", "-DHIPPO_FLOATS", "-o", "-", file]
        code, text, errors = output_of(command)
        if code:
            raise AssertionError(errors)
        text, _ = changed(text)
        return {
            function or variable
            for before, function, variable, kind in DEFINED.findall(text)
            if not HIDDEN.search(before + kind) and not (function or variable).startswith("llvm.")
        }

    def test_names_of_c_files(self) -> None:
        """No name is missed."""
        files = sorted(glob.glob(f"{RUNTIME}/*.c"))
        with ThreadPoolExecutor(2) as workers:
            for file, found in zip(files, workers.map(self.defined, files)):
                self.assertEqual(found - names_at_line_starts(file), set(), os.path.basename(file))

    def test_names_of_cpp_files(self) -> None:
        """Each form of names has a name, and the parameters of functions are no names."""
        for file in sorted(glob.glob(f"{RUNTIME}/*.cpp")):
            found = self.defined(file)
            for form in re.findall("^// provides (.*)$", read(file), re.M):
                self.assertTrue(any(re.match(form, name) for name in found), f"{os.path.basename(file)}: {form}")
            self.assertFalse(provides(file, {"main", "number"}))

    def test_parameters(self) -> None:
        """Words of parameters, types and bodies do not make a file needed."""
        self.assertFalse({"size", "void", "size_t", "alignment"} & names_at_line_starts(f"{RUNTIME}/cpp_memory.c"))


if __name__ == "__main__":
    unittest.main()
