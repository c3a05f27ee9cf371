"""Each form that bears on durability: C statements, the entries of a trace that they must give, and what check must miss.

The entries come from what the statement means: by Intel's manual for instructions, by the manual pages of libpmem and libpmem2, by POSIX
for calls on files. `S8:4` is a store of 4 bytes at offset 8 of the memory `w`, `F64` a flush of the line at offset 64, `F0x2` of two
lines, `N` a fence. What is missed is the kind of report at a check right after the statements: `flush`, `fence`, `both`, or nothing.
`w` is an array of words at the start of a line, `s` a volatile source of bytes 1, 2, 3, ..."""
from typing import NamedTuple


class Form(NamedTuple):
    """C statements, their entries, and the kinds of reports."""

    body: str
    entries: str
    missed: str = ""


FLUSHES = ("_mm_clwb(&w[1]);", "_mm_clflushopt(&w[7]);", "_mm_clflush((char *)w + 63);")
FENCES = ("_mm_sfence();", "_mm_mfence();", "pmem_drain();")
# They order loads, or wait, or tell the compiler something, or are left out by an option: none is a fence in hippo.
NO_FENCES = (
    "_mm_lfence();",
    "_mm_pause();",
    '__asm__ volatile("" ::: "memory");',
    '__asm__ volatile("pause");',
    '__asm__ volatile("lfence" ::: "memory");',
    '__asm__ volatile("nop");',
    '__asm__ volatile("rep; nop" ::: "memory");',
    '__asm__ volatile("rep nop");',
    "atomic_signal_fence(memory_order_seq_cst);",
    "atomic_thread_fence(memory_order_seq_cst);",
    "__sync_synchronize();",
    "__builtin_prefetch(&w[0]);",
)
ASM_FLUSHES = (
    '"clwb %0" : "+m"(*(volatile char *)&w[1])',
    '"clwb (%0)" : : "r"(&w[1]) : "memory"',
    '"clwb %0" : : "m"(w[1])',
    '".byte 0x66; xsaveopt %0" : "+m"(*(volatile char *)&w[1])',
    '".byte 0x66\\n\\txsaveopt %0" : "+m"(w[1])',
    '"clflushopt %0" : "+m"(*(volatile char *)&w[1])',
    '"clflushopt (%0)" : : "r"(&w[1])',
    '".byte 0x66; clflush %0" : "+m"(*(volatile char *)&w[1])',
    '"clflush %0" : : "m"(w[1])',
    '"CLFLUSH (%0)" : : "r"(&w[1])',
    '"clflush %[at]" : [at] "+m"(w[1])',
    '"clwb %1" : : "m"(w[20]), "m"(w[1])',
)
ASM_FENCES = ('"sfence"', '"sfence" ::: "memory"', '"mfence" ::: "memory"', '"\\tsfence\\n"')

SET = "w[0] = 1; "
# What libpmem's flags say of a copy of two words: all hints leave it durable.
HINTS = {
    "0": "",
    "NONTEMPORAL": "",
    "TEMPORAL": "",
    "WC": "",
    "WB": "",
    "NODRAIN": "fence",
    "NODRAIN | TEMPORAL": "fence",
    "NOFLUSH": "both",
    "NOFLUSH | NODRAIN": "both",
}
AFTER = {"": " F0 N", "fence": " F0", "both": ""}
TWO = "S0:8 S8:8"


def instructions() -> list[Form]:
    """Intrinsics and assembly."""
    forms = [Form(SET, "S0:8", "both"), Form("(void)w[0];", "")]
    for flush in FLUSHES:
        forms += [Form(SET + flush + fence, "S0:8 F0 N") for fence in FENCES]
        forms += [
            Form(SET + flush, "S0:8 F0", "fence"),
            Form(flush + SET + "_mm_sfence();", "F0 S0:8 N", "flush"),
            Form(SET + "_mm_sfence();" + flush, "S0:8 N F0", "fence"),
            Form(SET + flush + "w[2] = 3; _mm_sfence();", "S0:8 F0 S16:8 N", "flush"),
        ]
    forms += [Form(SET + fence, "S0:8 N", "flush") for fence in FENCES]
    forms += [
        Form(SET + "_mm_clwb(&w[8]); _mm_sfence();", "S0:8 F64 N", "flush"),
        Form("w[8] = 1; _mm_clwb(&w[7]); _mm_sfence();", "S64:8 F0 N", "flush"),
    ]
    for other in NO_FENCES:
        forms += [
            Form(f"{SET}_mm_clwb(w); {other}", "S0:8 F0", "fence"),
            Form(f"{SET}{other} _mm_sfence();", "S0:8 N", "flush"),
        ]
    for flush in ASM_FLUSHES:
        statement = f"__asm__ volatile({flush});"
        forms += [Form(SET + statement + "_mm_sfence();", "S0:8 F0 N"), Form(SET + statement, "S0:8 F0", "fence")]
    for fence in ASM_FENCES:
        statement = f"__asm__ volatile({fence});"
        forms += [Form(f"{SET}_mm_clwb(w); {statement}", "S0:8 F0 N"), Form(SET + statement, "S0:8 N", "flush")]
    return forms


def accesses() -> list[Form]:
    """Stores of all widths, past the cache, and by atomic instructions; these add no fence, as docs/FROM_C.md says."""
    forms = []
    for type_, count in (("char", 1), ("short", 2), ("int", 4), ("long", 8), ("__int128", 16)):
        stores = "S16:8 S24:8" if count == 16 else f"S16:{count}"
        forms += [
            Form(f"*({type_} *)&w[2] = 5;", stores, "both"),
            Form(f"*({type_} *)&w[2] = 5; pmem_persist(&w[2], {count});", f"{stores} F0 N"),
        ]
    for stored in ("_mm_stream_si64(&w[0], 5);", "__builtin_nontemporal_store(5ll, &w[0]);"):
        forms += [Form(stored, "S0:8 F0", "fence"), Form(stored + "_mm_sfence();", "S0:8 F0 N")]
    forms += [
        Form("_mm_stream_si32((int *)w + 3, 5);", "S12:4 F0", "fence"),
        Form("_mm_stream_si32((int *)w + 3, 5); _mm_sfence();", "S12:4 F0 N"),
        Form("__builtin_nontemporal_store((char)5, (char *)w + 70); _mm_mfence();", "S70:1 F64 N"),
    ]
    counter = "(_Atomic long long *)&w[0]"
    for stored in (
        f"atomic_store({counter}, 5);",
        f"atomic_store_explicit({counter}, 5, memory_order_release);",
        f"atomic_fetch_add({counter}, 5);",
        f"atomic_exchange({counter}, 5);",
        f"atomic_fetch_or({counter}, 5);",
        "__sync_fetch_and_add(&w[0], 5);",
        "__atomic_store_n(&w[0], 5, __ATOMIC_SEQ_CST);",
        f"long long old = w[0]; atomic_compare_exchange_strong({counter}, &old, 5);",
    ):
        forms += [
            Form(stored, "S0:8", "both"),
            Form(stored + "_mm_clwb(w);", "S0:8 F0", "fence"),
            Form(stored + "_mm_clwb(w); _mm_sfence();", "S0:8 F0 N"),
        ]
    return forms


def libpmem() -> list[Form]:
    """The calls of libpmem on the memory."""
    forms = [
        Form(SET + "pmem_flush(w, 8); pmem_drain();", "S0:8 F0 N"),
        Form(SET + "pmem_flush(&w[3], 1);", "S0:8 F0", "fence"),
        Form(SET + "pmem_persist(w, 65);", "S0:8 F0x2 N"),
        Form("w[8] = 1; pmem_persist((char *)w + 63, 1);", "S64:8 F0 N", "flush"),
        Form("w[8] = 1; pmem_persist((char *)w + 63, 2);", "S64:8 F0x2 N"),
        Form(SET + "pmem_drain();", "S0:8 N", "flush"),
        Form(SET + "pmem_flush(w, 0); pmem_drain();", "S0:8 N", "flush"),
        Form(SET + "pmem_persist(w, 0);", "S0:8 N", "flush"),
        Form(SET + "pmem_msync(w, 8);", "S0:8 F0 N"),
        Form(SET + "pmem_msync(w, 0);", "S0:8", "both"),
        Form(SET + "_mm_clwb(w); pmem_msync(w, 0);", "S0:8 F0", "fence"),
        Form(SET + "pmem_msync(&w[8], 8);", "S0:8 F64 N", "flush"),
        Form(SET + "pmem_deep_persist(w, 8);", "S0:8 F0 N"),
        Form(SET + "pmem_deep_persist(w, 0);", "S0:8", "both"),
        Form(SET + "pmem_deep_flush(w, 8);", "S0:8 F0", "fence"),
        Form(SET + "pmem_deep_flush(w, 8); pmem_deep_drain(w, 8);", "S0:8 F0 N"),
        Form(SET + "pmem_deep_flush(w, 8); pmem_deep_drain(w, 0);", "S0:8 F0", "fence"),
        Form(SET + "pmem_has_hw_drain(); pmem_has_auto_flush(); pmem_is_pmem(w, 8);", "S0:8", "both"),
    ]
    calls = {"memcpy": "w, s, 16", "memmove": "w, s, 16", "memset": "w, 7, 16"}
    for name, words in calls.items():
        forms += [
            Form(f"pmem_{name}({words}, {flags});", TWO + AFTER[missed], missed) for flags, missed in HINTS.items()
        ]
        forms += [
            Form(f"pmem_{name}_persist({words});", TWO + " F0 N"),
            Form(f"pmem_{name}_nodrain({words});", TWO + " F0", "fence"),
            Form(f"pmem_{name}_nodrain({words}); pmem_drain();", TWO + " F0 N"),
            Form(f"{name}({words});", TWO, "both"),
            Form(f"pmem_{name}({words}, NOFLUSH); pmem_persist(w, 8);", TWO + " F0 N"),
        ]
    return forms


def libpmem2() -> list[Form]:
    """The functions that a map of libpmem2 gives, on the memory of this map."""
    forms = [
        Form(SET + "pmem2_get_persist_fn(map)(w, 8);", "S0:8 F0 N"),
        Form(SET + "pmem2_get_flush_fn(map)(w, 8);", "S0:8 F0", "fence"),
        Form(SET + "pmem2_get_flush_fn(map)(w, 8); pmem2_get_drain_fn(map)();", "S0:8 F0 N"),
        Form(SET + "pmem2_get_drain_fn(map)();", "S0:8 N", "flush"),
        Form(SET + "pmem2_deep_flush(map, w, 8);", "S0:8 F0 N"),
        Form(SET + "pmem2_deep_flush(map, w, 1 << 20);", "S0:8", "both"),
        Form(SET + "pmem2_deep_flush(map, w, 0);", "S0:8", "both"),
        Form(SET + "pmem2_get_persist_fn(map)(&w[8], 8);", "S0:8 F64 N", "flush"),
    ]
    for name, words in {"memcpy": "w, s, 16", "memmove": "w, s, 16", "memset": "w, 7, 16"}.items():
        call = f"pmem2_get_{name}_fn(map)({words}, "
        forms += [Form(f"{call}{flags});", TWO + AFTER[missed], missed) for flags, missed in HINTS.items()]
    return forms


def files() -> list[Form]:
    """Calls on the file of the memory: `file` and `other` are descriptors of it, `synced` and `data` have O_SYNC and O_DSYNC."""
    page = "F0x64"
    forms = [Form(SET + f"msync(w, 8, {flags});", f"S0:8 {page} N") for flags in ("MS_SYNC", "MS_SYNC | MS_INVALIDATE")]
    forms += [
        Form(SET + f"msync(w, 8, {flags});", "S0:8", "both")
        for flags in ("MS_ASYNC", "0", "MS_INVALIDATE", "MS_SYNC | MS_ASYNC", "64")
    ]
    forms += [
        Form(SET + "msync(w, 0, MS_SYNC);", "S0:8", "both"),
        Form(SET + "msync((char *)w + 8, 8, MS_SYNC);", "S0:8", "both"),
        Form(SET + "msync((char *)w + 4096, 8, MS_SYNC);", "S0:8 F4096x64 N", "flush"),
        Form("w[511] = 1; w[512] = 2; msync(w, 4097, MS_SYNC);", "S4088:8 S4096:8 F0x128 N"),
    ]
    for sync in ("fsync(file);", "fdatasync(other);", "fsync(synced);"):
        forms.append(Form(SET + sync, "S0:8 F0x128 N"))
    forms += [
        Form(SET + "fsync(99);", "S0:8", "both"),
        Form(SET + "mprotect(w, 4096, PROT_READ);", "S0:8", "both"),
        Form("pwrite(file, (char *)s, 16, 0);", TWO, "both"),
        Form("pwrite(synced, (char *)s, 16, 0);", TWO + " F0 N"),
        Form("pwrite(data, (char *)s, 16, 0);", TWO + " F0 N"),
        Form("pwrite(file, (char *)s, 16, 0); fsync(file);", TWO + " F0x128 N"),
        Form("pwrite(synced, (char *)s, 0, 0);", ""),
        Form("lseek(other, 8, SEEK_SET); write(other, (char *)s, 8);", "S8:8", "both"),
        Form("lseek(synced, 8, SEEK_SET); write(synced, (char *)s, 8);", "S8:8 F0 N"),
        Form("writev(synced, (struct iovec[]){{(char *)s, 8}, {(char *)s, 8}}, 2);", "S16:8 F0 N S24:8 F0 N"),
        Form("pwritev(data, (struct iovec[]){{(char *)s, 8}, {(char *)s, 8}}, 2, 56);", "S56:8 F0 N S64:8 F64 N"),
        Form("fcntl(file, F_SETFL, O_SYNC); pwrite(file, (char *)s, 8, 0);", "S0:8", "both"),
        Form("int copy = dup(synced); pwrite(copy, (char *)s, 8, 0); close(copy);", "S0:8 F0 N"),
        Form("pread(file, local, 16, 0); read(file, local, 4);", ""),
        Form('close(open("data.pool", O_RDWR | O_SYNC));', ""),
    ]
    return forms + mappings()


def mappings() -> list[Form]:
    """Stores through mappings of the file: shared ones are persistent, private ones are not."""
    forms = []
    shared = "mmap(0, 8192, PROT_READ | PROT_WRITE, {}, file, 0)"
    for flags in ("MAP_SHARED", "MAP_SHARED_VALIDATE", "MAP_SHARED_VALIDATE | MAP_SYNC", "MAP_SHARED | MAP_POPULATE"):
        at = f"*(volatile long long *){shared.format(flags)} = 3;"
        forms += [Form(at, "S0:8", "both"), Form(at + "_mm_clwb(w); _mm_sfence();", "S0:8 F0 N")]
    for flags in ("MAP_PRIVATE", "MAP_PRIVATE | MAP_POPULATE"):
        forms.append(Form(f"*(volatile long long *){shared.format(flags)} = 3;", ""))
    return forms
