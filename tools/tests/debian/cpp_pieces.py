"""The pieces of C++ that are taken from Debian's packages, each with the driver in `cpp/` that runs it. Where a library is headers alone,
its built package has them."""
from pieces import Piece

FLAGS = ["-std=c++17"]
INCLUDE = "usr/include"
THREAD = ["--single-thread"]
TEXT = ["--ignore-output"]
ABSEIL = [
    f"absl/{name}.cc"
    for name in ("base/internal/raw_logging", "base/internal/throw_delegate", "container/internal/raw_hash_set")
]
# Without locales, and with a long double that is a double, since no other has arithmetic.
FORMAT = ("-DFMT_HEADER_ONLY", "-DFMT_STATIC_THOUSANDS_SEPARATOR=','", "-mlong-double-64")
LEVELDB = (
    "db/builder db/dbformat db/filename db/log_reader db/log_writer db/memtable db/write_batch "
    "table/block table/block_builder table/filter_block table/format table/iterator table/merger "
    "table/table table/table_builder table/two_level_iterator util/arena util/bloom util/cache "
    "util/coding util/comparator util/crc32c util/env util/filter_policy util/hash util/logging "
    "util/options util/status"
)


def of_headers(name: str, package: str, what: str, *options: str, flags: tuple[str, ...] = ()) -> Piece:
    """A library whose built package has all of its code, in headers. Of several packages, the first one is the piece's."""
    return Piece(
        name,
        package,
        what,
        [],
        [INCLUDE],
        flags=[*FLAGS, *flags],
        options=list(options),
        language="cpp",
        is_built=True,
    )


def of_sources(
    name: str,
    package: str,
    what: str,
    sources: list[str],
    includes: list[str],
    *options: str,
    flags: tuple[str, ...] = (),
) -> Piece:
    """A library with files of its own."""
    return Piece(name, package, what, sources, includes, flags=[*FLAGS, *flags], options=list(options), language="cpp")


BOOST = "libboost1.81-dev"
CPP_PIECES = [
    of_headers("boost_intrusive", BOOST, "trees, hash table, lists of linked objects"),
    of_headers("boost_interprocess", BOOST, "allocator and containers with offset pointers", *THREAD),
    of_headers("boost_container", BOOST, "flat, stable, small and fixed containers"),
    of_headers("boost_multi_index", BOOST, "table with four indexes"),
    of_headers("boost_heap", BOOST, "five priority queues"),
    of_headers("boost_rtree", BOOST, "R-tree of boxes", flags=("-Wno-missing-template-arg-list-after-template-kw",)),
    of_headers("boost_lockfree", BOOST, "queues without locks, pool, bitset", *THREAD),
    of_headers("boost_unordered", BOOST, "hash tables"),
    of_headers("boost_rings", BOOST, "ring, two-way map, sets of bits and intervals, pool"),
    of_headers("policy_trees", "libstdc++-12-dev", "trees, hash table and heaps by policies"),
    of_headers("robin_map", "robin-map-dev", "hash table with robin hood hashing"),
    of_headers("hopscotch_map", "libtsl-hopscotch-map-dev", "hash table with hopscotch hashing"),
    of_headers("sparsehash", "libsparsehash-dev", "dense and sparse hash tables", *TEXT),
    of_headers("plf_colony", "libplf-colony-dev", "blocks with skipfields"),
    of_headers("kdtree", "libkdtree++-dev", "tree of points"),
    of_headers("lemon", "liblemon-dev", "graphs", *THREAD),
    of_headers("nanoflann", "libnanoflann-dev", "index of points", *TEXT),
    of_headers("queues", "libconcurrentqueue-dev libreaderwriterqueue-dev", "queues without locks", *THREAD),
    of_headers("utf8", "libutfcpp-dev", "texts in Unicode"),
    of_headers("flatbuffers", "libflatbuffers-dev", "tables that are read in place", *THREAD, *TEXT),
    of_headers("msgpack", f"libmsgpack-cxx-dev {BOOST}", "packed values", *THREAD, *TEXT),
    of_headers("json", "nlohmann-json3-dev", "JSON and its binary forms", *THREAD, *TEXT),
    of_headers("format", "libfmt-dev", "texts of numbers", *TEXT, flags=FORMAT),
    of_sources("abseil_btree", "abseil", "B-trees", ABSEIL[:2], ["."], *THREAD, *TEXT),
    of_sources("abseil_hash", "abseil", "hash tables with SSE2", ABSEIL, ["."], *THREAD, *TEXT),
    of_sources("tinyxml", "tinyxml2", "XML", ["tinyxml2.cpp"], ["."], *TEXT),
    of_sources("pugixml", "pugixml", "XML", ["src/pugixml.cpp"], ["src"]),
    of_sources(
        "leveldb",
        "leveldb",
        "memory table, log, table file",
        [f"{name}.cc" for name in LEVELDB.split()],
        [".", "include"],
        *THREAD,
        *TEXT,
        flags=("-Ishims/leveldb", "-DLEVELDB_PLATFORM_POSIX=1"),
    ),
]
