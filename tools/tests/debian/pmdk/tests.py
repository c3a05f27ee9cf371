"""PMDK's unit tests `obj_*`, `pmem_*` and `util_*`: those that are tried, each with its pools and its arguments, and the others."""
from dataclasses import dataclass


@dataclass(frozen=True)
class Test:
    """A test: the folder of its files, its arguments, the files of persistent memory, more options of tools/lower, a file of another
    test's folder that it uses, and, for a test that does not print the same, why."""

    name: str
    arguments: str = ""
    pools: str = ""
    options: str = ""
    uses: str = ""
    why: str = ""


FIRST_NEXT = "testfile a:0:0 a:0:1 a:1:1 a:0:2 a:1:2 a:0:3 a:1:3 P:0 P:1 n:0:2 n:1:1 r:0:0 r:1:0 P:0 P:1 n:0:0 n:1:0 a:0:4 a:1:4 P:0 P:1"
LIST_MACRO = "testfile i:0:0:1 P:1 R:1 i:0:0:2 P:1 R:1 i:0:0:3 P:1 R:1 i:0:2:4 P:1 R:1 i:0:0:5 P:1 R:1 i:0:3:6 P:1 R:1"
ZEROS = ",zeros"
# Why tests are out.
THREADS, SETS, WINDOWS = "several threads", "pools of several files", "Windows"
DEVICES, VALGRIND = "devices or a file system of their own", "it runs under memcheck, and tests what that says"

TESTS = [
    Test("util_ravl"),
    Test("util_vec"),
    Test("util_vecq"),
    Test("util_is_zeroed"),
    Test("util_pool_hdr"),
    Test("util_ctl", "testconfig", "testconfig=64K"),
    Test("util_is_absolute", "/a/b c"),
    Test("util_parse_size", "11K 11M 11G 11T 11P 11KB 0 -1 x 1.5 18446744073709551615"),
    Test("obj_bucket"),
    Test("obj_layout"),
    Test("obj_toid", "testfile1", "testfile1=8M"),
    Test("obj_strdup", "testfile1", "testfile1=8M"),
    Test("obj_tx_flow", "t testfile1", "testfile1=8M"),
    Test("obj_tx_free", "testfile1", "testfile1=8M"),
    Test("obj_tx_realloc", "testfile1", f"testfile1=16M{ZEROS}"),
    Test("obj_tx_alloc", "testfile1", f"testfile1=16M{ZEROS}"),
    Test("obj_tx_strdup", "testfile1", "testfile1=8M"),
    Test("obj_tx_callbacks", "testfile1", "testfile1=8M"),
    Test("obj_tx_user_data", "testfile", "testfile=8M"),
    Test("obj_list_macro", LIST_MACRO, "testfile=8M"),
    Test("obj_first_next", FIRST_NEXT, "testfile=8M"),
    Test("obj_ctl_debug", "testfile", "testfile=8M"),
    Test("obj_ctl_stats", "testfile1", "testfile1=8M"),
    Test("obj_tx_invalid", "testfile1 alloc-in-work", "testfile1=8M"),
    Test("obj_debug", "testfile1 f", "testfile1=8M"),
    Test("obj_heap_state", "testfile1", f"testfile1=16M{ZEROS}"),
    Test("obj_heap_reopen", "testfile1", f"testfile1=16M{ZEROS}"),
    Test("obj_lane", "s", why=THREADS),
    Test("obj_action", "testfile", "testfile=8M"),
    Test("obj_critnib"),
    Test("obj_tx_add_range", "testfile0 0", "testfile0=16M"),
    Test("obj_tx_add_range_direct", "testfile0", "testfile0=16M"),
    Test("obj_basic_integration", "testfile1", f"testfile1=16M{ZEROS}"),
    Test("obj_recreate", "testfile1", "testfile1=16M"),
    Test("obj_locks", "testfile1", "testfile1=8M", why=THREADS),
    Test("obj_tx_locks", "testfile1", "testfile1=8M"),
    Test("obj_tx_locks_abort", why="it tries a lock that it holds, and with --single-thread each lock is free"),
    Test("obj_ctl_alloc_class", "testfile b", "testfile=32M"),
    Test("obj_alloc", "testfile 0 0 0 0 0 0", "testfile=8M"),
    Test("obj_mem", "testfile1", f"testfile1=16M{ZEROS}"),
    Test("obj_constructor", "testfile1", f"testfile1=16M{ZEROS}"),
    Test("obj_realloc", "testfile1", "testfile1=16M"),
    Test("obj_pmemcheck", "testfile", "testfile=8M"),
    Test("obj_pool", "c testfile test 20 0600", "testfile=20M"),
    Test("obj_many_size_allocs", "testfile1", f"testfile1=16M{ZEROS}"),
    Test("obj_reorder_basic", "testfile1 w", "testfile1=16M"),
    Test("obj_recovery", "testfile n c s", f"testfile=16M{ZEROS}"),
    Test("obj_ulog_size", "testfile testfile1", f"testfile=16M{ZEROS} testfile1=16M{ZEROS}"),
    Test("obj_persist_count", "testfile", "testfile=8M"),
    Test("obj_heap", "t"),
    Test("obj_memblock"),
    Test("obj_sync", "m 1 1"),
    Test("obj_root", "testfile", "testfile=8M"),
    Test("obj_pool_lock", "testfile", "testfile=8M"),
    Test("obj_check", "testfile", "testfile=8M"),
    Test("obj_defrag", "testfile", f"testfile=16M{ZEROS}"),
    Test("obj_direct", ". 1"),
    Test("obj_pool_lookup", ". 1"),
    Test("obj_oid_thread", ". 1"),
    Test("obj_ctl_config", "testfile", "testfile=8M"),
    Test("obj_ctl_alloc_class_config", "testfile", "testfile=8M"),
    Test("obj_tx_lock", "l n a testfile1", "testfile1=8M"),
    Test("obj_tx_mt", "testfile1", "testfile1=8M"),
    Test("obj_ctl_alignment", "testfile", "testfile=32M"),
    Test("obj_zones", "testfile1 c", "testfile1=32M"),
    Test("obj_include"),
    Test("obj_pmalloc_basic"),
    Test("obj_memops", "testfile", "testfile=16M"),
    Test("pmem_is_pmem", "testfile1", "testfile1=4K,small", why="it changes its own environment"),
    Test("pmem_memcpy", "testfile1 0 0 4096", f"testfile1=16M{ZEROS}", uses="pmem2_memcpy/memcpy_common.c"),
    Test("pmem_memmove", "testfile1 b:4096", f"testfile1=16M{ZEROS}", uses="pmem2_memmove/memmove_common.c"),
    Test("pmem_memset", "testfile1 8 2048", f"testfile1=16M{ZEROS}", uses="pmem2_memset/memset_common.c"),
    Test("pmem_map_file", "testfile 4096 - 0 - 0 1 0", "testfile=4K,small"),
    Test("pmem_unmap", "testfile", f"testfile=16M{ZEROS}"),
    Test(
        "pmem_has_auto_flush", why="it ends by a signal natively too: its build replaces calls on the system's devices"
    ),
    Test("pmem_valgr_simple", "testfile1", f"testfile1=16M{ZEROS}"),
    Test("pmem_movnt"),
    Test("pmem_movnt_align", "C 1"),
    Test("pmem_map_file_trunc", "testfile", "testfile=16M"),
    Test("pmem_deep_persist", "testfile1 p -1 0", f"testfile1=16M{ZEROS}"),
    Test("pmem_include"),
    Test("util_file_open", "4096 testfile1", "testfile1=4K,small"),
    Test("util_file_create", "4096 4096:testfile1", "testfile1=4K"),
    Test("util_cpuid"),
    Test("util_uuid_generate"),
    Test("util_poolset_size", "testfile", "testfile=4K,small"),
    Test("util_map_proc", "testfile", "testfile=4K,small"),
]

NOT_TRIED = {
    "obj_badblock": DEVICES,
    "obj_critnib_mt": THREADS,
    "obj_ctl_arenas": SETS,
    "obj_ctl_heap_size": SETS,
    "obj_defrag_advanced": "graphs of objects in a pool of 500 MB",
    "obj_direct_volatile": THREADS,
    "obj_extend": SETS,
    "obj_fragmentation": "a pool of 1 GB",
    "obj_fragmentation2": "a pool of 1 GB",
    "obj_heap_interrupt": "its runs end in gdb or in a mock, and the next one goes on with the file",
    "obj_list": "the program of obj_list_insert, obj_list_move, obj_list_remove and obj_list_recovery",
    "obj_list_insert": "its build replaces functions inside of the library's files",
    "obj_list_move": "as obj_list_insert",
    "obj_list_recovery": "as obj_list_insert",
    "obj_list_remove": "as obj_list_insert",
    "obj_list_valgrind": VALGRIND,
    "obj_memcheck": VALGRIND,
    "obj_memcheck_register": VALGRIND,
    "obj_out_of_memory": SETS,
    "obj_pmalloc_mt": THREADS,
    "obj_pmalloc_oom_mt": THREADS,
    "obj_pmalloc_rand_mt": THREADS,
    "obj_pool_open_mt": THREADS,
    "obj_pool_win": WINDOWS,
    "obj_sds": SETS,
    "obj_tx_alloc_mt": THREADS,
    "pmem_eADR_functions": "it tests the platform's list of power domains",
    "pmem_has_auto_flush_win": WINDOWS,
    "pmem_is_pmem_posix": DEVICES,
    "pmem_is_pmem_windows": WINDOWS,
    "pmem_map_file_win": WINDOWS,
    "util_badblock": DEVICES,
    "util_extent": DEVICES,
    "util_is_poolset": SETS,
    "util_poolset": SETS,
    "util_poolset_foreach": SETS,
    "util_poolset_parse": SETS,
    "util_sds": SETS,
}
