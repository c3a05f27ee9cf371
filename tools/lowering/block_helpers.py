"""Functions that are added to a program to copy and to set memory, each once."""
from string import Template

FORWARD = Template(
    """\
forward:
  %i = phi i64 [ 0, %$before ], [ %next, %forward ]
  %from = getelementptr i8, ptr %source, i64 %i
  %to = getelementptr i8, ptr %target, i64 %i
  %value = load $type, ptr %from
  store $type %value, ptr %to
  %next = add i64 %i, $step
  %more = icmp ult i64 %next, %count
  br i1 %more, label %forward, label %done
"""
)

BACKWARD = Template(
    """\
backward:
  %k = phi i64 [ %count, %$before ], [ %last, %backward ]
  %last = sub i64 %k, $step
  %source.last = getelementptr i8, ptr %source, i64 %last
  %target.last = getelementptr i8, ptr %target, i64 %last
  %value.last = load $type, ptr %source.last
  store $type %value.last, ptr %target.last
  %first = icmp eq i64 %last, 0
  br i1 %first, label %done, label %backward
"""
)

COPY = Template(
    """\
define void $name(ptr %target, ptr %source, i64 %count) {
entry:
  %none = icmp eq i64 %count, 0
  br i1 %none, label %done, label %$start
$direction${loops}\
done:
  ret void
}"""
)

DIRECTION = """\
direction:
  %below = icmp ult ptr %target, %source
  br i1 %below, label %forward, label %backward
"""

SET = Template(
    """\
define void $name(ptr %target, i8 %byte, i64 %count) {
entry:
${widen}\
  %none = icmp eq i64 %count, 0
  br i1 %none, label %done, label %forward
forward:
  %i = phi i64 [ 0, %entry ], [ %next, %forward ]
  %to = getelementptr i8, ptr %target, i64 %i
  store $type $value, ptr %to
  %next = add i64 %i, $step
  %more = icmp ult i64 %next, %count
  br i1 %more, label %forward, label %done
done:
  ret void
}"""
)

# Whole words first, and then the bytes that are left.
PARTS = Template(
    """\
define void $name(ptr %target, $operand, i64 %count) {
entry:
  %whole = and i64 %count, -$step
  %rest = sub i64 %count, %whole
  %target.rest = getelementptr i8, ptr %target, i64 %whole
${source_rest}\
${calls}\
}"""
)


def copy_helper(name: str, step: int, overlapping: bool) -> str:
    """Copies `count` bytes, a multiple of `step`; overlapping ranges in the direction that keeps the source."""
    names = {"type": f"i{8 * step}", "step": step}
    if not overlapping:
        loops = FORWARD.substitute(names, before="entry")
        return COPY.substitute(name=name, start="forward", direction="", loops=loops)
    loops = FORWARD.substitute(names, before="direction") + BACKWARD.substitute(names, before="direction")
    return COPY.substitute(name=name, start="direction", direction=DIRECTION, loops=loops)


def set_helper(name: str, step: int) -> str:
    """Sets `count` bytes, a multiple of `step`."""
    type_ = f"i{8 * step}"
    if step == 1:
        return SET.substitute(name=name, type=type_, step=step, widen="", value="%byte")
    widen = f'  %wide = zext i8 %byte to {type_}\n  %word = mul {type_} %wide, {int("01" * step, 16)}\n'
    return SET.substitute(name=name, type=type_, step=step, widen=widen, value="%word")


def parts_helper(name: str, step: int, kind: str, words: str, bytes_: str) -> str:
    """Copies or sets any number of bytes, by one helper for whole words and one for the bytes that are left."""
    if kind == "memset":
        calls = f"  call void {words}(ptr %target, i8 %byte, i64 %whole)\n"
        calls += f"  call void {bytes_}(ptr %target.rest, i8 %byte, i64 %rest)\n  ret void\n"
        return PARTS.substitute(name=name, step=step, operand="i8 %byte", source_rest="", calls=calls)
    by_words = f"  call void {words}(ptr %target, ptr %source, i64 %whole)\n"
    by_bytes = f"  call void {bytes_}(ptr %target.rest, ptr %source.rest, i64 %rest)\n"
    calls = by_words + by_bytes + "  ret void\n"
    if kind == "memmove":
        calls = (
            "  %below = icmp ult ptr %target, %source\n  br i1 %below, label %forward, label %backward\n"
            f"forward:\n{calls}backward:\n{by_bytes}{by_words}  ret void\n"
        )
    source_rest = "  %source.rest = getelementptr i8, ptr %source, i64 %whole\n"
    return PARTS.substitute(name=name, step=step, operand="ptr %source", source_rest=source_rest, calls=calls)


# Any alignment: single bytes up to the first word of the target, words that are read at any address, the bytes left.
ANY = Template(
    """\
define void $name(ptr %target, $operand, i64 %count) {
entry:
  %at = ptrtoint ptr %target to i64
  %before = sub i64 0, %at
  %odd = and i64 %before, 7
  %short = icmp ult i64 %count, %odd
  %head = select i1 %short, i64 %count, i64 %odd
  %after.head = sub i64 %count, %head
  %whole = and i64 %after.head, -8
  %tail = and i64 %after.head, 7
  %to.tail = add i64 %head, %whole
  %target.words = getelementptr i8, ptr %target, i64 %head
  %target.tail = getelementptr i8, ptr %target, i64 %to.tail
${sources}\
${order}\
}"""
)

ANY_FORWARD = Template(
    """\
  call void $bytes_(ptr %target, ${head}, i64 %head)
  %no.words = icmp eq i64 %whole, 0
  br i1 %no.words, label %done, label %words
words:
  %i = phi i64 [ 0, %$before ], [ %next, %words ]
  %to = getelementptr i8, ptr %target.words, i64 %i
${word}\
  store i64 %word, ptr %to
  %next = add i64 %i, 8
  %more = icmp ult i64 %next, %whole
  br i1 %more, label %words, label %done
done:
  call void $bytes_(ptr %target.tail, ${tail}, i64 %tail)
  ret void
"""
)

ANY_BACKWARD = Template(
    """\
backward:
  call void $bytes_(ptr %target.tail, ptr %source.tail, i64 %tail)
  %none.back = icmp eq i64 %whole, 0
  br i1 %none.back, label %first, label %back
back:
  %k = phi i64 [ %whole, %backward ], [ %last, %back ]
  %last = sub i64 %k, 8
  %from.back = getelementptr i8, ptr %source.words, i64 %last
  %to.back = getelementptr i8, ptr %target.words, i64 %last
  %word.back = load i64, ptr %from.back, align 1
  store i64 %word.back, ptr %to.back
  %is.first = icmp eq i64 %last, 0
  br i1 %is.first, label %first, label %back
first:
  call void $bytes_(ptr %target, ptr %source, i64 %head)
  ret void
"""
)


def any_helper(name: str, kind: str, bytes_: str) -> str:
    """Copies or sets any number of bytes at any alignment, in words of the target."""
    if kind == "memset":
        widen = f'  %wide = zext i8 %byte to i64\n  %word = mul i64 %wide, {int("01" * 8, 16)}\n'
        order = ANY_FORWARD.substitute(bytes_=bytes_, head="i8 %byte", tail="i8 %byte", before="entry", word="")
        return ANY.substitute(name=name, operand="i8 %byte", sources=widen, order=order)
    sources = (
        "  %source.words = getelementptr i8, ptr %source, i64 %head\n"
        "  %source.tail = getelementptr i8, ptr %source, i64 %to.tail\n"
    )
    word = "  %from = getelementptr i8, ptr %source.words, i64 %i\n  %word = load i64, ptr %from, align 1\n"
    overlapping = kind == "memmove"
    order = ANY_FORWARD.substitute(
        bytes_=bytes_,
        head="ptr %source",
        tail="ptr %source.tail",
        word=word,
        before="forward" if overlapping else "entry",
    )
    if overlapping:
        order = (
            "  %below = icmp ule ptr %target, %source\n  br i1 %below, label %forward, label %backward\n"
            f"forward:\n{order}{ANY_BACKWARD.substitute(bytes_=bytes_)}"
        )
    return ANY.substitute(name=name, operand="ptr %source", sources=sources, order=order)
