"""Texts of a given length, each made of one form."""

from __future__ import annotations

from collections.abc import Callable, Iterator

MAIN = "define i32 @main() {\ne:\n  ret i32 0\n}\n"


def mixed(number: int) -> str:
    """A function with a loop, a call, memory and a switch."""
    return f"""define i64 @f{number}(i64 %n) {{
entry:
  %box = alloca {{ i64, [4 x i32] }}
  %field = getelementptr {{ i64, [4 x i32] }}, ptr %box, i64 0, i32 1, i64 2
  store i32 {number}, ptr %field
  br label %loop
loop:
  %i = phi i64 [ 0, %entry ], [ %next, %again ]
  %place = and i64 %i, 63
  %at = getelementptr [64 x i64], ptr @a, i64 0, i64 %place
  %old = load i64, ptr %at
  %sum = add nsw i64 %old, {number * 7919}
  %rest = urem i64 %sum, 3
  switch i64 %rest, label %again [ i64 0, label %stored i64 1, label %called ]
stored:
  store i64 %sum, ptr %at
  br label %again
called:
  %answer = call i64 @f{number and number - 1}(i64 %rest)
  %low = trunc i64 %answer to i8
  br label %again
again:
  %next = add i64 %i, 1
  %more = icmp ult i64 %next, %n
  br i1 %more, label %loop, label %done
done:
  %part = load i32, ptr %field
  %wide = zext i32 %part to i64
  ret i64 %wide
}}
"""


# Each form: what comes before the first piece, a piece by its number, and what comes after the last one, by the number of pieces.
Form = tuple[str, Callable[[int], str], Callable[[int], str]]
FORMS: dict[str, Form] = {
    "mixed functions": ("@a = global [64 x i64] zeroinitializer\n", mixed, lambda count: ""),
    "empty functions": ("", lambda n: f"define void @f{n}(){{e:ret void}}\n", lambda count: ""),
    "blocks": (
        "define void @f(){e:br label %b0\n",
        lambda n: f"b{n}:br label %b{n + 1}\n",
        lambda count: f"b{count}:ret void}}\n",
    ),
    "ends": ("define void @f(){e:unreachable\n", lambda n: f"b{n}:ret void\n", lambda count: "}\n"),
    "additions": ("define void @f(){e:\n", lambda n: f"%v{n}=add i8 0,0\n", lambda count: "ret void}\n"),
    "stores": ("define void @f(){e:\n", lambda n: "store i8 0,ptr null\n", lambda count: "ret void}\n"),
    "calls": (
        "define void @g(){e:ret void}define void @f(){e:\n",
        lambda n: "call void @g()\n",
        lambda count: "ret void}\n",
    ),
    "loads": ("define void @f(){e:\n", lambda n: f"%v{n}=load i8,ptr null\n", lambda count: "ret void}\n"),
    "phis": ("define void @f(){e:br label %b\nb:\n", lambda n: f"%p{n}=phi i8[0,%e]\n", lambda count: "ret void}\n"),
    "cases": (
        "define void @f(i64 %n){e:switch i64 %n,label %e2[",
        lambda n: f"i64 {n},label %e2\n",
        lambda count: "]\ne2:ret void}\n",
    ),
    "globals": ("", lambda n: f"@g{n}=global i8 0\n", lambda count: ""),
    "numbers": ("@g=global{", lambda n: f"{',' if n else ''}i8", lambda count: "}zeroinitializer\n"),
}


def text_of(form: Form, size: int) -> Iterator[str]:
    """The pieces of a program of this form that has about `size` bytes, and not more."""
    head, piece, tail = form
    length, number = len(head) + len(tail(10**7)) + len(MAIN), 0
    yield head
    while True:
        text = piece(number)
        length += len(text)
        if length > size:
            break
        yield text
        number += 1
    yield tail(number)
    yield MAIN


def write(path: str, name: str, size: int) -> str:
    """Writes a text of a form into a file."""
    with open(path, "w", encoding="ascii") as file:
        file.writelines(text_of(FORMS[name], size))
    return path
