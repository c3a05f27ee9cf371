"""The texts of .ci/hostile_input.py: programs of 16 MiB of one form, and a deep run."""

from __future__ import annotations

from typing import Callable, NamedTuple

MIB = 1 << 20


class Large(NamedTuple):
    """A text of 16 MiB with the answer that `run` must give: its exit code, and what it writes to standard error."""

    name: str
    text: Callable[[], bytes]
    code: int
    notes: str


def filled(front: bytes, unit: bytes, back: bytes = b"", size: int = 16 * MIB) -> bytes:
    """A text of at most this size: a front, one unit repeated, and a back."""
    return front + unit * ((size - len(front) - len(back)) // len(unit)) + back


def listed(element: bytes, size: int = 16 * MIB) -> bytes:
    """A global array with its elements written out."""
    count = size // (len(element) + 1) - 9
    head = b"@x = global [%d x %s] [" % (count, element.split(b" ")[0])
    return head + b",".join([element] * count) + b"]\n"


def in_main(front: bytes, unit: bytes, back: bytes = b"") -> bytes:
    """A program whose `main` has one unit repeated."""
    return filled(b"@x = global i1 0\ndefine i32 @main() {\na:\n" + front, unit, back + b"\nret i32 0\n}\n")


NO_MAIN = "hippo: program: no main at program\n"
AT_ONCE = "hippo: program line 1: syntax\n"
LARGE = [
    Large("opening brackets", lambda: filled(b"", b"["), 5, AT_ONCE),
    Large("brackets of types", lambda: filled(b"@x = global ", b"[1 x "), 5, "hippo: program line 1: depth\n"),
    Large("braces of types", lambda: filled(b"@x = global ", b"{"), 5, "hippo: program line 1: depth\n"),
    Large("parentheses", lambda: filled(b"declare void @f", b"("), 5, AT_ONCE),
    Large("one name", lambda: filled(b"@", b"a", b" = global i64 0"), 5, NO_MAIN),
    Large("names", lambda: filled(b"", b"@a "), 5, AT_ONCE),
    Large("words", lambda: filled(b"", b"define "), 5, AT_ONCE),
    Large("dropped words", lambda: filled(b"@x = ", b"private ", b"global i1 0"), 5, NO_MAIN),
    Large("one number of zeros", lambda: filled(b"@x = global i64 ", b"0"), 5, NO_MAIN),
    Large("one number of nines", lambda: filled(b"@x = global i64 ", b"9"), 5, "hippo: program line 1: range\n"),
    Large("one comment", lambda: filled(b"", b";"), 5, NO_MAIN),
    Large("comments", lambda: filled(b"", b";\n"), 5, NO_MAIN),
    Large("line feeds", lambda: filled(b"", b"\n", b"]"), 5, f"hippo: program line {16 * MIB}: syntax\n"),
    Large("one string", lambda: filled(b'source_filename = "', b"a", b'"'), 5, NO_MAIN),
    Large("commas", lambda: filled(b"", b","), 5, AT_ONCE),
    Large("bytes 0", lambda: filled(b"", b"\0"), 5, AT_ONCE),
    Large("bytes 255", lambda: filled(b"", b"\xff"), 5, AT_ONCE),
    Large("a list of bits", lambda: listed(b"i1 1"), 5, NO_MAIN),
    Large("a list of empty structs", lambda: listed(b"{} {}"), 5, NO_MAIN),
    Large("fields of a struct", lambda: filled(b"@x = global {i1", b",i1", b"} zeroinitializer"), 5, NO_MAIN),
    Large("globals", lambda: filled(b"", b"@x = global i1 0\n"), 5, "hippo: program: duplicate at global 1\n"),
    Large(
        "parameters", lambda: filled(b"declare i1 @f(ptr", b",ptr", b")"), 5, "hippo: program: bad extern at extern 0\n"
    ),
    Large("flags", lambda: in_main(b"%x = add", b" nuw", b" i64 1, 1"), 0, "stop 0\n"),
    Large("stores", lambda: in_main(b"", b"store i1 0,ptr @x\n"), 0, "stop 0\n"),
    Large("edges of a phi", lambda: in_main(b"br label %b b: %x = phi i64 [0,%a]", b",[0,%a]"), 0, "stop 0\n"),
]
# The deepest of 4,000 calls stores a million times, and then flushes each line once.
DEEP = b"""@a = global [1000000 x i64] zeroinitializer, section ".pm"
declare void @llvm.x86.clwb(ptr)
declare void @llvm.x86.sse.sfence()
define void @down(i64 %n) {
entry:
  %z = icmp eq i64 %n, 0
  br i1 %z, label %store, label %more
more:
  %m = sub i64 %n, 1
  call void @down(i64 %m)
  ret void
store:
  %i = phi i64 [ 0, %entry ], [ %j, %store ]
  %p = getelementptr [1000000 x i64], ptr @a, i64 0, i64 %i
  store i64 %i, ptr %p
  %j = add i64 %i, 1
  %c = icmp ult i64 %j, 1000000
  br i1 %c, label %store, label %flush
flush:
  %k = phi i64 [ 0, %store ], [ %l, %flush ]
  %q = getelementptr [1000000 x i64], ptr @a, i64 0, i64 %k
  call void @llvm.x86.clwb(ptr %q)
  %l = add i64 %k, 8
  %d = icmp ult i64 %l, 1000000
  br i1 %d, label %flush, label %done
done:
  call void @llvm.x86.sse.sfence()
  ret void
}
define i32 @main() {
entry:
  call void @down(i64 4000)
  ret i32 0
}
"""
