"""Edits of the runtime, of the C header and of the definitions of the external functions."""
from __future__ import annotations

from .edit import Edit

PMEM, PMEM2, HEAP, ENDS = (
    "tools/runtime/libpmem.c",
    "tools/runtime/libpmem2.c",
    "tools/runtime/heap.c",
    "tools/runtime/ends.c",
)
FLAGS, LIBPMEM = "test_libpmem_flags.Flags.test_what_is_flushed_and_fenced", "test_runtime.Runtime.test_libpmem"
EXTERNAL = "test_external_functions.Definitions.test_flushes_and_fences_of_a_range"

EDITS = [
    Edit(
        "no_drain_is_ignored",
        "fences after a copy of libpmem whose flags say not to",
        PMEM,
        "  if (!(flags & NO_DRAIN)) pmem_drain();\n",
        "  pmem_drain();\n",
        FLAGS,
    ),
    Edit(
        "no_flush_is_ignored",
        "flushes after a copy of libpmem whose flags say not to",
        PMEM,
        "  if (flags & NO_FLUSH) return to;\n",
        "",
        FLAGS,
    ),
    Edit(
        "copy_without_drain_drains",
        "fences in `pmem_memcpy_nodrain`",
        PMEM,
        "{ return pmem_memcpy(to, from, length, NO_DRAIN); }",
        "{ return pmem_memcpy(to, from, length, 0); }",
        FLAGS,
    ),
    Edit(
        "copy_flushes_its_first_line",
        "flushes the first line of what a copy of libpmem stored",
        PMEM,
        "  pmem_flush(to, length);\n  if (!(flags",
        "  pmem_flush(to, 1);\n  if (!(flags",
        FLAGS,
    ),
    Edit(
        "length_of_a_pool_is_not_durable",
        "does not make the length of a pool durable",
        "tools/runtime/pool.c",
        "  pmem_persist(pool->file, sizeof *pool->file);\n",
        "",
        LIBPMEM + "2",
    ),
    Edit(
        "memset_forgets_the_bytes_after_words",
        "sets whole words only",
        "tools/runtime/memory.c",
        "*(word *)to = filled;\n  for (; size; size--) *to++ = (unsigned char)byte;\n",
        "*(word *)to = filled;\n",
        "test_runtime.Runtime.test_memory",
    ),
    Edit(
        "memmove_goes_upward",
        "copies overlapping ranges in one direction",
        "tools/runtime/memory.c",
        "  if ((uintptr_t)to <= (uintptr_t)from)\n",
        "  if (to)\n",
        "test_runtime.Runtime.test_memory",
    ),
    Edit(
        "failed_assert_goes_on",
        "returns from a failed `assert`",
        ENDS,
        "  (void)assertion, (void)file, (void)line, (void)function;\n  __builtin_trap();\n",
        "  (void)assertion, (void)file, (void)line, (void)function;\n  for (;;) ;\n",
        "test_runtime.SmallPrograms.test_abort_and_assert_trap",
    ),
    Edit(
        "first_line_is_flushed_natively",
        "defines `pmem_flush` for a build so that it flushes the first line alone",
        "tools/external_functions.c",
        "line < end; line += 64",
        "line < end; line = end",
        EXTERNAL,
    ),
    Edit(
        "flush_without_lines_before",
        "defines `pmem_flush` for a build so that it starts at the address, and not at its line",
        "tools/external_functions.c",
        "(uintptr_t)from & ~(uintptr_t)63",
        "(uintptr_t)from",
        EXTERNAL,
    ),
    Edit(
        "persist_does_not_fence_natively",
        "defines `pmem_persist` for a build without its fence",
        "tools/external_functions.c",
        "  pmem_flush(from, size);\n  pmem_drain();\n",
        "  pmem_flush(from, size);\n",
        EXTERNAL,
    ),
    Edit(
        "header_without_a_section",
        "puts PERSISTENT data into another section",
        "tools/hippo.h",
        'section(".pm"), used',
        "used",
        "hippo_c_tests.test_check.Check.test_each_check_has_its_place",
    ),
]
