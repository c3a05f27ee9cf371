"""The C files of libpmemobj and of the libraries below it, and how clang reads them; nothing of PMDK is part of this repository."""
import json
import os

CORE = "alloc fs_posix membuf os_posix os_thread_posix out ravl ravl_interval util util_posix"
COMMON = (
    "bad_blocks set_badblocks ctl ctl_prefault ctl_sds ctl_fallocate ctl_cow file file_posix mmap mmap_posix os_deep_linux "
    "pool_hdr rand set shutdown_state uuid uuid_linux"
)
PMEM2 = (
    "pmem2_utils config persist_posix badblocks badblocks_none usc_none source source_posix auto_flush_linux deep_flush_linux "
    "extent_linux pmem2_utils_linux pmem2_utils_none memops_generic region_namespace_none numa_none"
)
OBJ = (
    "alloc_class bucket container_ravl container_seglists critnib ctl_debug heap lane libpmemobj list memblock memops obj palloc "
    "pmalloc recycler sync tx stats ulog"
)
FOLDERS = {
    "core": CORE,
    "common": COMMON,
    "libpmem2": PMEM2,
    "libpmem2/x86_64": "init cpu",
    "libpmem": "libpmem pmem pmem_posix",
    "libpmemobj": OBJ,
}
MAPS = (
    "map/map",
    "map/map_btree",
    "map/map_ctree",
    "map/map_rbtree",
    "map/map_skiplist",
    "map/map_hashmap_atomic",
    "map/map_hashmap_tx",
    "map/map_hashmap_rp",
    "tree_map/btree_map",
    "tree_map/ctree_map",
    "tree_map/rbtree_map",
    "list_map/skiplist_map",
    "hashmap/hashmap_atomic",
    "hashmap/hashmap_tx",
    "hashmap/hashmap_rp",
)
# PMDK's own switches: a processor without the vector copies.
SWITCHES = ("SSE2", "AVX", "AVX512F", "MOVDIR64B")
EVERYWHERE = [
    "-std=gnu99",
    "-D_GNU_SOURCE",
    '-DSRCVERSION="1.13.1"',
    "-DSDS_ENABLED",
    "-DUSE_LIBDL",
    *(f"-D{name}_AVAILABLE=0" for name in SWITCHES),
]
INSIDE = ("include", "core", "common", "libpmem2", "libpmem2/x86_64", "libpmem", "libpmemobj")
EXAMPLE = "examples/libpmemobj"
OF_EXAMPLES = (
    "include",
    "examples",
    EXAMPLE,
    *(
        f"{EXAMPLE}/{name}"
        for name in (
            "map",
            "hashmap",
            "tree_map",
            "list_map",
            "queue",
            "slab_allocator",
            "string_store_tx",
            "linkedlist",
        )
    ),
)
OF_TESTS = ("include", "test/unittest", *INSIDE[1:], "examples")


class Library:
    """PMDK's source below a folder: the files, and the arguments of clang for each."""

    def __init__(self, source: str) -> None:
        self.source = os.path.join(source, "src")
        self.arguments: dict[str, list[str]] = {}
        common = [*EVERYWHERE, f"-I{source}/src/deps/miniasync/src/include"]
        self.inside = [*common, "-D_PMEMOBJ_INTRNL", *self.folders(INSIDE)]
        self.of_examples = [*common, *self.folders(OF_EXAMPLES)]
        self.of_tests = [*common, "-D_PMEMOBJ_INTRNL", *self.folders(OF_TESTS)]
        self.files = self.note(
            [f"{folder}/{name}.c" for folder, names in FOLDERS.items() for name in names.split()], self.inside
        )
        self.maps = self.note([f"{EXAMPLE}/{name}.c" for name in MAPS], self.of_examples)

    def folders(self, names: tuple[str, ...]) -> list[str]:
        """The arguments for folders of headers."""
        return [f"-I{self.source}/{name}" for name in names]

    def note(self, names: list[str], arguments: list[str]) -> list[str]:
        """Notes the arguments of files; their paths."""
        paths = [name if name.startswith("/") else f"{self.source}/{name}" for name in names]
        self.arguments.update((path, arguments) for path in paths)
        return paths

    def write_commands(self, path: str) -> str:
        """Writes a `compile_commands.json` of all files that were noted; its path."""
        entries = [
            {"directory": "/", "file": file, "arguments": ["cc", *arguments, "-c", file]}
            for file, arguments in self.arguments.items()
        ]
        with open(path, "w", encoding="utf-8") as out:
            json.dump(entries, out, indent=1)
        return path
