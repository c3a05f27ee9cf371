"""Programs that each grow in one way: a function takes a size and gives the text."""

from __future__ import annotations

DECLARED = """declare void @print_i64(i64)
declare void @pm_assert(ptr, i64)
declare void @pmem_flush(ptr, i64)
declare void @llvm.x86.clwb(ptr)
declare void @llvm.x86.sse.sfence()
"""


def loop(name: str, turns: int, body: str, before: str, after: str) -> str:
    """Blocks that run a body in a loop, in which `%NAME` counts the turns. The block before them is `before`, the block after them
    `after`."""
    return f"""  br label %{name}.head
{name}.head:
  %{name} = phi i64 [ 0, %{before} ], [ %{name}.next, %{name}.head ]
{body}  %{name}.next = add i64 %{name}, 1
  %{name}.more = icmp ult i64 %{name}.next, {turns}
  br i1 %{name}.more, label %{name}.head, label %{after}
{after}:
"""


def program(body: str, *items: str) -> str:
    """A program whose `main` has this body, with these items before it."""
    return DECLARED + "\n".join(items) + "\ndefine i32 @main() {\nentry:\n" + body + "  ret i32 0\n}\n"


def region(count: int, kind: str = "i64") -> str:
    """A persistent array."""
    return f'@x = global [{count} x {kind}] zeroinitializer, section ".pm", align 64'


def at(index: str, count: int, kind: str = "i64") -> str:
    """The address of an item of the persistent array, in `%at`."""
    return f"  %at = getelementptr [{count} x {kind}], ptr @x, i64 0, i64 {index}\n"


def descent(deepest: str, at_each: str = "") -> str:
    """A function that calls itself `%n` deep, with the code for each level and for the deepest."""
    return f"""define void @down(i64 %n) {{
entry:
{at_each}  %last = icmp eq i64 %n, 0
  br i1 %last, label %deepest, label %deeper
deeper:
  %less = sub i64 %n, 1
  call void @down(i64 %less)
  ret void
deepest:
{deepest}  ret void
}}"""


def each_level(depth: int) -> str:
    """Calls this deep, with a store at each level that is never flushed."""
    return program(
        f"  call void @down(i64 {depth})\n",
        region(depth + 1),
        descent("", at("%n", depth + 1) + "  store i64 1, ptr %at\n"),
    )


def deep_stores(count: int) -> str:
    """Stores that are never flushed, all of them 16,000 calls deep."""
    stores = loop("i", count, at("%i", count) + "  store i64 1, ptr %at\n", "deepest", "over")
    return program("  call void @down(i64 16000)\n", region(count), descent(stores))


def asserts_over_loose(asserts: int) -> str:
    """A thousand stores that are never flushed, and this many asserts of all of them."""
    stores = loop("i", 1000, at("%i", 1000) + "  store i64 1, ptr %at\n", "entry", "stored")
    return program(
        stores + loop("k", asserts, "  call void @pm_assert(ptr @x, i64 8000)\n", "stored", "over"), region(1000)
    )


def wide_call(count: int, argument: str = "@x") -> str:
    """One call with this many pointers."""
    parameters = ", ".join(f"ptr %p{number}" for number in range(count))
    store = "  store i64 1, ptr %p0\n" if argument == "@x" else ""
    taken = f"define void @take({parameters}) {{\nentry:\n{store}  ret void\n}}"
    given = ", ".join([f"ptr {argument}"] * count)
    return program(f"  call void @take({given})\n", region(1), taken)


def wide_call_of_null(count: int) -> str:
    """One call with this many null pointers."""
    return wide_call(count, "null")


def wide_switch(cases: int) -> str:
    """A switch of this many cases, which takes each of them once."""
    rows = "".join(f"    i64 {number}, label %again\n" for number in range(cases))
    return program(
        f"""  br label %head
head:
  %i = phi i64 [ 0, %entry ], [ %next, %again ]
  switch i64 %i, label %over [
{rows}  ]
again:
  %next = add i64 %i, 1
  br label %head
over:
"""
    )


def deep_registers(depth: int) -> str:
    """Calls this deep of a function of 50,000 registers, of which a call uses a few."""
    names = "".join(f"  %r{number} = add i64 %n, {number}\n" for number in range(50_000))
    deepest = (
        f"  %rare = icmp eq i64 %n, 7\n  br i1 %rare, label %many, label %over\nmany:\n{names}  br label %over\nover:\n"
    )
    return program(f"  call void @down(i64 {depth})\n", descent(deepest))


def empty_blocks(count: int) -> str:
    """A loop of allocations of an empty type."""
    return program(loop("i", count, "  %p = alloca {}\n", "entry", "over"))


def calls_with_block(count: int, size: int) -> str:
    """Calls of a function that allocates a block of this many bytes, and stores into its first one."""
    block = f"define void @block() {{\nentry:\n  %p = alloca [{size} x i8]\n  store i8 1, ptr %p\n  ret void\n}}"
    return program(loop("i", count, "  call void @block()\n", "entry", "over"), block)


def asserts_over_region(size: int) -> str:
    """Ten thousand asserts over a region of this many bytes, in which nothing is loose."""
    return program(
        loop("i", 10_000, f"  call void @pm_assert(ptr @x, i64 {size})\n", "entry", "over"), region(size, "i8")
    )


def loose_lines(count: int) -> str:
    """A store into each of this many cache lines, none of them flushed."""
    stores = at("%i", count, "[8 x i64]") + "  store i64 1, ptr %at\n"
    return program(loop("i", count, stores, "entry", "over"), region(count, "[8 x i64]"))


def fences_beside_loose_lines(count: int) -> str:
    """This many cache lines that are never flushed, and then 100,000 flushes and fences of another one."""
    stores = at("%i", count, "[8 x i64]") + "  store i64 1, ptr %at\n"
    flushes = "  store i64 1, ptr @y\n  call void @llvm.x86.clwb(ptr @y)\n  call void @llvm.x86.sse.sfence()\n"
    body = loop("i", count, stores, "entry", "stored") + loop("k", 100_000, flushes, "stored", "over")
    return program(body, region(count, "[8 x i64]"), '@y = global i64 0, section ".pm", align 64')


def asserts_beside_loose_lines(asserts: int) -> str:
    """2,500 cache lines that are never flushed, and this many asserts of all of them, with a store before each."""
    store = at("%i", 2_500, "[8 x i64]") + "  store i64 1, ptr %at\n"
    again = "  store i64 %k, ptr @x\n  call void @pm_assert(ptr @x, i64 160000)\n"
    body = loop("i", 2_500, store, "entry", "stored") + loop("k", asserts, again, "stored", "over")
    return program(body, region(2_500, "[8 x i64]"))


def flushes_of_loose_lines(count: int) -> str:
    """This many stores, each into a new cache line, with a flush of the range of all lines after each, and no fence."""
    store = at("%i", count, "[8 x i64]") + "  store i64 1, ptr %at\n"
    flush = f"  call void @pmem_flush(ptr @x, i64 {64 * count})\n"
    return program(loop("i", count, store + flush, "entry", "over"), region(count, "[8 x i64]"))


def back_edges(count: int) -> str:
    """A chain of this many blocks, in which block n has an edge back to block n / 2."""
    blocks = "".join(
        f"b{number}:\n  %v{number} = add i64 %v{number - 1}, 1\n"
        f"  br i1 true, label %b{number + 1}, label %b{max(1, number // 2)}\n"
        for number in range(1, count)
    )
    return program(f"  br label %b0\nb0:\n  %v0 = add i64 1, 1\n  br label %b1\n{blocks}b{count}:\n")


def stores_to_one_word(count: int) -> str:
    """Stores to one persistent word, which is never flushed."""
    return program(loop("i", count, "  store i64 %i, ptr @x\n", "entry", "over"), region(1))


def untouched_region(size: int) -> str:
    """A region that nothing touches."""
    return program("", region(size, "i8"))


def prints(count: int) -> str:
    """A loop that prints its counter."""
    return program(loop("i", count, "  call void @print_i64(i64 %i)\n", "entry", "over"))


def turns(count: int) -> str:
    """The same loop without the print."""
    return program(loop("i", count, "  %y = add i64 %i, 7\n", "entry", "over"))
