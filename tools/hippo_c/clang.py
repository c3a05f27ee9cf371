"""The command lines by which hippo-c runs clang on the files of a program."""

from lowering.languages import HEADERS, arguments_for, is_cpp

# Every call compiles for the processor that hippo's programs are for, and leaves warnings to the user's own build.
CLANG = ("clang-19", "-w", "-target", "x86_64-pc-linux-gnu", "-mclwb", "-mclflushopt", "-idirafter", HEADERS)


def clang_for(file: str) -> list[str]:
    """The command that runs clang on a file of C or C++, without the file."""
    return ["clang++-19" if is_cpp(file) else CLANG[0], *CLANG[1:]]


def emit_text(include: str, clang: list[str], file: str, *flags: str) -> list[str]:
    """The command that writes LLVM's text form of a file, without optimisation, to standard output."""
    return [
        *clang_for(file),
        "-O0",
        "-S",
        "-emit-llvm",
        f"-I{include}",
        *arguments_for(file, clang),
        *flags,
        "-o",
        "-",
        file,
    ]
