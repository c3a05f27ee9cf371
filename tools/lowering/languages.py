"""The languages of source files, and clang's commands for them."""
import os

from .compile_commands import own_arguments
from .options import Options

# Headers for machines without the libraries; those of the system come first.
HEADERS = os.path.join(os.path.dirname(os.path.dirname(os.path.abspath(__file__))), "headers")

C, CPP = ".c", (".cc", ".cpp", ".cxx", ".c++", ".C")
FLAGS = """-S -emit-llvm -target x86_64-pc-linux-gnu -mclwb -mclflushopt -fwrapv
    -fno-strict-aliasing -fno-inline -fno-vectorize -fno-slp-vectorize -fno-unroll-loops -fno-stack-protector -fno-pic
    -fno-asynchronous-unwind-tables -fno-discard-value-names -gline-tables-only -Xclang -disable-O0-optnone""".split()
C_FLAGS = ["-fno-exceptions"]
# The headers see that exceptions are on, as in the user's own build, and no call has a second end. The last flag puts the names of
# functions with their classes and parameters into the line tables.
CPP_FLAGS = """-fexceptions -fcxx-exceptions -Xclang -fignore-exceptions -fno-threadsafe-statics
    -fdebug-info-for-profiling""".split()


def is_cpp(file: str) -> bool:
    """Whether a file is C++."""
    return file.endswith(CPP)


def is_source(file: str) -> bool:
    """Whether clang compiles a file, which is C or C++ then."""
    return file.endswith(C) or is_cpp(file)


def compiler(file: str) -> list[str]:
    """The program that compiles a C or C++ file, and the flags of its language."""
    return [*(["clang++-19", *CPP_FLAGS] if is_cpp(file) else ["clang-19", *C_FLAGS]), "-idirafter", HEADERS]


def arguments_for(file: str, given: list[str]) -> list[str]:
    """The user's arguments that are for a file: a `-std=` is for the files of its language, so a program may have files of both."""
    return [word for word in given if not word.startswith("-std=") or ("++" in word) == is_cpp(file)]


def command_for(file: str, level: str, options: Options, folder: str) -> list[str]:
    """The command that compiles a file with the headers in a folder. The level comes first: after the flags it would enable vectors
    again."""
    name, *flags = compiler(file)
    return [
        name,
        level,
        *FLAGS,
        *flags,
        f"-I{folder}",
        *arguments_for(
            file, [*own_arguments(file, options.compile_commands, options.shares_arguments), *options.clang]
        ),
        file,
    ]
