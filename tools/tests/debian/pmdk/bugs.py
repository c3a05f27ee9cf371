"""Bugs that are put into libpmemobj and its maps, one at a time: each takes a flush, a fence, a persist or a TX_ADD away at a line of C."""
from typing import NamedTuple

OBJ, HASHMAP, TREE = "libpmemobj", "examples/libpmemobj/hashmap", "examples/libpmemobj/tree_map"
# What is taken away: the call; the flush of a call that copies; the fence of each persist of the pool.
CALL, FLUSH, FENCE = "call", "flush", "fence"
NOFLUSH = 32  # PMEMOBJ_F_MEM_NOFLUSH


class Bug(NamedTuple):
    """A bug: its name, its file and line, what is taken away, the map whose run is tried, what is lost, and, for a bug that is equivalent
    in these runs, why."""

    name: str
    file: str
    line: int
    away: str
    map: int
    what: str
    why: str = ""


BUGS = [
    Bug("h1", f"{OBJ}/heap.c", 575, CALL, 0, "zone header"),
    Bug("h2", f"{OBJ}/heap.c", 1716, CALL, 0, "heap header at creation"),
    Bug("h3", f"{OBJ}/heap.c", 1732, CALL, 0, "heap size at creation"),
    Bug("l1", f"{OBJ}/lane.c", 326, CALL, 0, "lanes at creation"),
    Bug("b1", f"{OBJ}/memblock.c", 175, FLUSH, 0, "legacy object header"),
    Bug("b2", f"{OBJ}/memblock.c", 217, FLUSH, 0, "compact object header"),
    Bug("b3", f"{OBJ}/memblock.c", 640, CALL, 0, "huge chunk header"),
    Bug("b4", f"{OBJ}/memblock.c", 1402, CALL, 0, "run header and bitmap"),
    Bug("b5", f"{OBJ}/memblock.c", 1421, CALL, 0, "run data headers"),
    Bug("b6", f"{OBJ}/memblock.c", 1434, CALL, 0, "run chunk header"),
    Bug("b7", f"{OBJ}/memblock.c", 1348, CALL, 0, "huge chunk"),
    Bug("o1", f"{OBJ}/obj.c", 815, CALL, 0, "pool descriptor"),
    Bug("o2", f"{OBJ}/obj.c", 819, CALL, 0, "run_id 0"),
    Bug("o3", f"{OBJ}/obj.c", 993, CALL, 0, "run_id"),
    Bug("o4", f"{OBJ}/obj.c", 1884, FLUSH, 0, "zeroed new object"),
    Bug("o5", f"{OBJ}/obj.c", 2451, CALL, 0, "pmemobj_persist does nothing"),
    Bug("o6", f"{OBJ}/obj.c", 822, CALL, 0, "root_offset"),
    Bug("o7", f"{OBJ}/obj.c", 834, FLUSH, 0, "reserved area"),
    Bug("p1", f"{OBJ}/palloc.c", 563, CALL, 0, "fence after object headers"),
    Bug("p2", f"{OBJ}/memops.c", 615, CALL, 0, "next log"),
    Bug("t1", f"{OBJ}/tx.c", 397, CALL, 0, "fence in an abort"),
    Bug("t2", f"{OBJ}/tx.c", 410, CALL, 0, "flush of a range at commit"),
    Bug("t3", f"{OBJ}/tx.c", 1011, CALL, 0, "fence at commit"),
    Bug("t4", f"{OBJ}/tx.c", 353, FLUSH, 0, "range that an abort restores"),
    Bug("u1", f"{OBJ}/ulog.c", 159, CALL, 0, "new log header"),
    Bug("u2", f"{OBJ}/ulog.c", 347, CALL, 0, "fence after the next logs"),
    Bug("u3", f"{OBJ}/ulog.c", 358, FLUSH, 0, "redo log"),
    Bug("u4", f"{OBJ}/ulog.c", 471, FLUSH, 0, "undo data, whole lines"),
    Bug("u5", f"{OBJ}/ulog.c", 481, FLUSH, 0, "undo data, last line"),
    Bug("u6", f"{OBJ}/ulog.c", 499, FLUSH, 0, "undo entry, first line"),
    Bug("u7", f"{OBJ}/ulog.c", 503, CALL, 0, "fence after an undo entry"),
    Bug("u8", f"{OBJ}/ulog.c", 562, CALL, 0, "applied redo entry"),
    Bug("u9", f"{OBJ}/ulog.c", 613, CALL, 0, "generation number"),
    Bug("u10", f"{OBJ}/ulog.c", 705, FLUSH, 0, "clobbered log header"),
    Bug("u11", f"{OBJ}/ulog.c", 800, CALL, 0, "fence after applied redo entries"),
    Bug("a1", f"{HASHMAP}/hashmap_atomic.c", 75, CALL, 4, "new entry"),
    Bug("a2", f"{HASHMAP}/hashmap_atomic.c", 235, CALL, 4, "count_dirty = 1"),
    Bug("a3", f"{HASHMAP}/hashmap_atomic.c", 252, CALL, 4, "count"),
    Bug("a4", f"{HASHMAP}/hashmap_atomic.c", 256, CALL, 4, "count_dirty = 0"),
    Bug("a5", f"{HASHMAP}/hashmap_atomic.c", 115, CALL, 4, "new map"),
    Bug("i1", f"{OBJ}/list.c", 234, CALL, 4, "new list entry"),
    Bug("i2", f"{OBJ}/list.c", 268, CALL, 4, "list entry uuid"),
    Bug("m1", f"{OBJ}/obj.c", 0, FENCE, 0, "fence of each persist"),
    Bug("e1", f"{TREE}/btree_map.c", 309, CALL, 0, "TX_ADD of slots[n]"),
    Bug("e2", f"{TREE}/ctree_map.c", 88, CALL, 1, "TX_ADD of root"),
    Bug("e3", f"{TREE}/rbtree_map.c", 166, CALL, 2, "TX_ADD of a node"),
    Bug("e4", f"{HASHMAP}/hashmap_tx.c", 175, CALL, 3, "TX_ADD of count"),
    Bug("e5", f"{TREE}/btree_map.c", 457, CALL, 0, "TX_ADD of items[p]"),
    Bug("e6", f"{TREE}/btree_map.c", 249, CALL, 0, "TX_ADD of a node"),
    Bug("e7", f"{HASHMAP}/hashmap_tx.c", 174, CALL, 3, "TX_ADD of a bucket"),
]
