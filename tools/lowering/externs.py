"""The external functions that hippo knows: the table of the crate hip_externs, row by row."""
from typing import NamedTuple


class Extern(NamedTuple):
    """An external function: its result, its parameters, and what it does to cache lines."""

    result: str
    parameters: tuple[str, ...]
    effect: str = ""


EXTERNS = {
    "read_i64": Extern("i64", ()),
    "print_i64": Extern("void", ("i64",)),
    "pm_assert": Extern("void", ("ptr", "i64")),
    "llvm.x86.clwb": Extern("void", ("ptr",), "flush"),
    "llvm.x86.clflushopt": Extern("void", ("ptr",), "flush"),
    "llvm.x86.sse2.clflush": Extern("void", ("ptr",), "flush"),
    "llvm.x86.sse.sfence": Extern("void", (), "fence"),
    "llvm.x86.sse2.mfence": Extern("void", (), "fence"),
    "pmem_flush": Extern("void", ("ptr", "i64"), "flush"),
    "pmem_persist": Extern("void", ("ptr", "i64"), "flush and fence"),
    "pmem_drain": Extern("void", (), "fence"),
}
FENCES = frozenset(name for name, row in EXTERNS.items() if "fence" in row.effect)
LINE_FLUSHES = frozenset(name for name, row in EXTERNS.items() if row.effect == "flush" and row.parameters == ("ptr",))
TAKE_ADDRESSES = frozenset(name for name, row in EXTERNS.items() if "ptr" in row.parameters)
LIBPMEM = frozenset(name for name in EXTERNS if name.startswith("pmem_"))


def declaration(name: str) -> str:
    """The line that declares an external function."""
    row = EXTERNS[name]
    return f'declare {row.result} @{name}({", ".join(row.parameters)})'
