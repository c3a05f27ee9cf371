"""The pieces of C that are taken from Debian's source packages, each with the driver that runs it. `cpp_pieces.py` has those of C++."""
from dataclasses import dataclass, field


@dataclass(frozen=True)
class Piece:
    """Sources of a package, unchanged, and what is needed to compile and run them."""

    name: str  # also the name of the driver
    package: str
    what: str
    sources: list[str]  # in the package's folder
    includes: list[str] = field(default_factory=lambda: ["."])
    headers: list[str] = field(default_factory=list)  # whose code is counted with the sources
    own: list[str] = field(default_factory=list)  # of this folder, compiled with them
    flags: list[str] = field(default_factory=list)  # for clang
    options: list[str] = field(default_factory=list)  # for tools/lower
    files: dict[str, int | str] = field(default_factory=dict)  # what a native run finds: a text, or the number of zeros
    driver: str = ""  # where another piece's driver serves this one too; '-' for none
    arguments: list[str] = field(default_factory=list)
    configured: dict[str, dict[str, str]] = field(
        default_factory=dict
    )  # headers that configure makes: NAME.in, by its words
    needs_libpmem: bool = False
    language: str = "c"  # also the end of the driver's name
    is_built: bool = False  # the package is a built one, whose headers are enough


HEAP = ["persistent_heap.c"]
TEXT = "Stores become durable by a flush and a fence.\n" * 60
FILES = ["--file-calls", "--ignore-output"]
MUSL = ["-include", "shims/musl.h", "-Ishims"]
REDIS = [*HEAP, "shims/redis_memory.c"]
REDIS_UTIL = ["src", "deps/fpconv", "deps/fast_float"]
ZLIB = "adler32 crc32 deflate inflate inffast inftrees trees zutil compress uncompr"
BZIP2 = "blocksort huffman crctable randtable compress decompress bzlib"
GDBM = (
    "avail base64 bucket falloc findkey fullio gdbmclose gdbmcount gdbmdelete gdbmerrno gdbmexists gdbmfdesc gdbmfetch "
    "gdbmopen gdbmreorg gdbmseq gdbmsetopt gdbmstore gdbmsync hash lock mmap recover update version"
)
LMDB = "libraries/liblmdb"
PMEM2 = "src/examples/libpmem2"


def files(folder: str, names: str) -> list[str]:
    """The paths of C files in a folder."""
    return [f"{folder}/{name}.c" if folder else f"{name}.c" for name in names.split()]


def lmdb(name: str, what: str, flags: str) -> Piece:
    """LMDB with flags of its environment."""
    return Piece(
        name,
        "lmdb",
        what,
        files(LMDB, "mdb midl"),
        [LMDB],
        driver="lmdb",
        flags=[f"-DMDB_FLAGS={flags}"],
        options=["--single-thread", *FILES, "--pool", "data.mdb=1M"],
    )


def pmem2(name: str, what: str, size: int, *options: str) -> Piece:
    """An example of libpmem2, over one file."""
    return Piece(
        f"pmem2_{name}",
        "pmdk",
        what,
        [],
        [f"{PMEM2}/{name}", "src/examples", "src/include"],
        headers=[f"{PMEM2}/{name}/{name}.c"],
        files={"data.pool": size},
        needs_libpmem=True,
        options=[*FILES, "--pool", f"data.pool={size}", *options],
    )


def pmem_copy(name: str, what: str) -> Piece:
    """An example of libpmem, which copies a file into a mapped one."""
    return Piece(
        f"pmem_{name}",
        "pmdk",
        what,
        [f"src/examples/libpmem/{name}.c"],
        ["src/include"],
        driver="-",
        own=["shown_unmap.c"],
        flags=["-Dpmem_unmap=shown_unmap"],
        files={"source": TEXT},
        needs_libpmem=True,
        options=[*FILES, "--pool", "source=4096,source", "--pool", "target=8192"],
        arguments=["source", "target"],
    )


PIECES = [
    lmdb("lmdb", "B+ tree store", "0"),
    lmdb("lmdb_in_place", "B+ tree store, map written in place", "MDB_WRITEMAP"),
    Piece("zlib", "zlib", "compression", files("", ZLIB), options=["--heap", "1M"]),
    Piece("bzip2", "bzip2", "compression", files("", BZIP2), flags=["-DBZ_NO_STDIO"], options=["--heap", "8M"]),
    Piece("lz4", "lz4", "compression", files("lib", "lz4 lz4hc"), ["lib"]),
    Piece("redis_lzf", "redis", "compression", files("src", "lzf_c lzf_d"), ["src"], flags=["-DSTRICT_ALIGN=1"]),
    Piece("xxhash", "xxhash", "hash functions", ["xxhash.c"], headers=["xxhash.h"], flags=["-DXXH_NO_XXH3"]),
    Piece(
        "qp_trie",
        "knot",
        "trie",
        ["src/contrib/qp-trie/trie.c", *files("src/contrib", "mempattern string")],
        ["src"],
        own=HEAP,
        flags=['-DCONFIGURE_SUMMARY=""'],
    ),
    Piece("redis_rax", "redis", "radix tree", ["src/rax.c"], ["src"], own=REDIS, options=["--ignore-output"]),
    Piece(
        "redis_listpack",
        "redis",
        "packed list",
        files("src", "listpack util sds"),
        REDIS_UTIL,
        own=REDIS,
        options=["--ignore-output"],
    ),
    Piece("redis_intset", "redis", "sorted set of integers", files("src", "intset endianconv"), ["src"], own=REDIS),
    Piece(
        "redis_sds", "redis", "strings", files("src", "sds util"), REDIS_UTIL, own=REDIS, options=["--ignore-output"]
    ),
    Piece("lea_malloc", "libffi", "allocator", [], ["src"], headers=["src/dlmalloc.c"]),
    Piece(
        "musl_tsearch",
        "musl",
        "AVL tree",
        files("src/search", "tsearch tdelete tfind tdestroy twalk"),
        own=HEAP,
        flags=MUSL,
    ),
    Piece("musl_qsort", "musl", "sorting", files("src/stdlib", "qsort qsort_nr"), flags=MUSL),
    Piece(
        "btrfs_rbtree",
        "btrfs-progs",
        "red-black tree",
        ["kernel-lib/rbtree.c"],
        [".", "include"],
        flags=["-DBTRFS_FLAT_INCLUDES"],
    ),
    Piece("libavl", "libavl", "AVL tree", ["avl.c"], own=HEAP),
    Piece("uthash", "uthash", "hash table", [], ["src"], headers=["src/uthash.h"], own=HEAP),
    Piece(
        "utlist",
        "uthash",
        "lists, arrays, strings",
        [],
        ["src"],
        own=HEAP,
        headers=[f"src/{name}.h" for name in ("utlist", "utarray", "utstring")],
    ),
    Piece(
        "mini_gmp", "gmp", "long numbers", ["mini-gmp/mini-gmp.c"], ["mini-gmp"], own=HEAP, options=["--ignore-output"]
    ),
    Piece(
        "qdbm_cabin", "qdbm", "lists and maps", files("", "cabin myconf"), own=HEAP, options=["--single-thread", *FILES]
    ),
    Piece(
        "qdbm_depot",
        "qdbm",
        "hash database in a file",
        files("", "depot myconf"),
        options=["--single-thread", *FILES, "--pool", "data.depot=256K"],
    ),
    Piece(
        "gdbm",
        "gdbm",
        "hash table in a file",
        files("src", GDBM),
        ["src"],
        flags=["-Ishims/gdbm"],
        configured={
            "src/gdbm.h": {
                "GDBM_COUNT_T": "unsigned long long",
                "GDBM_DEBUG_ENABLE": "0",
                "GDBM_VERSION_MAJOR": "1",
                "GDBM_VERSION_MINOR": "24",
                "GDBM_VERSION_PATCH": "0",
            }
        },
        options=["--single-thread", *FILES, "--pool", "data.gdbm=256K"],
    ),
    pmem2("redo", "redo log", 16384),
    pmem2("log", "log", 1 << 20),
    pmem2("ringbuf", "ring buffer", 65536, "--single-thread"),
    pmem2("basic", "a text in a file", 16384),
    pmem_copy("simple_copy", "copy of one block"),
    pmem_copy("full_copy", "copy of a file"),
]
