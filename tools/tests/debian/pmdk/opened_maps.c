// PMDK's maps in a pool that already exists. Without numbers the run creates the pool and its maps. Otherwise the numbers are the map, then operations:
// 1 and a key inserts, 2 and a key removes, 3 clears the map, 4 and a key inserts a new object, 5 and a key looks a key up, 0 ends.
#include <ex_common.h>
#include <hippo.h>
#include <libpmemobj.h>
#include <stdio.h>
#include <stdlib.h>
#include "map.h"
#include "map_btree.h"
#include "map_ctree.h"
#include "map_hashmap_atomic.h"
#include "map_hashmap_rp.h"
#include "map_hashmap_tx.h"
#include "map_rbtree.h"
#include "map_skiplist.h"

POBJ_LAYOUT_BEGIN(driver);
POBJ_LAYOUT_ROOT(driver, struct root);
POBJ_LAYOUT_TOID(driver, struct item);
POBJ_LAYOUT_END(driver);

struct item {
  uint64_t data;
};
enum { MAPS = 7, KEYS = 256 };
struct root {
  TOID(struct map) maps[MAPS];
};

#define POOL "data.pool"

static const struct map_ops *operations_of(long long kind) {
  switch (kind) {
  case 0: return MAP_BTREE;
  case 1: return MAP_CTREE;
  case 2: return MAP_RBTREE;
  case 3: return MAP_HASHMAP_TX;
  case 4: return MAP_HASHMAP_ATOMIC;
  case 5: return MAP_HASHMAP_RP;
  default: return MAP_SKIPLIST;
  }
}

static void must(int holds) {
  if (!holds) abort();
}

static int construct(PMEMobjpool *pool, void *block, void *key) {
  struct item *item = block;
  item->data = *(uint64_t *)key * 7 + 1;
  pmemobj_persist(pool, item, sizeof *item);
  return 0;
}

static PMEMoid new_item(PMEMobjpool *pool, uint64_t key) {
  TOID(struct item) item;
  must(POBJ_NEW(pool, &item, struct item, construct, &key) == 0);
  return item.oid;
}

static uint64_t read_key(void) {
  long long key = read_i64();
  hippo_assume(key >= 0 && key < KEYS);
  return (uint64_t)key;
}

static void insert(PMEMobjpool *pool, struct map_ctx *context, TOID(struct map) map, uint64_t key) {
  if (!map_lookup(context, map, key)) must(map_insert(context, map, key, new_item(pool, key)) == 0);
}

static void take(struct map_ctx *context, TOID(struct map) map, uint64_t key) {
  PMEMoid item = map_remove(context, map, key);
  if (!OID_IS_NULL(item)) pmemobj_free(&item);
}

static void work(PMEMobjpool *pool, struct map_ctx *context, TOID(struct map) map) {
  for (long long operation; (operation = read_i64()) != 0;) {
    hippo_assume(operation > 0 && operation < 6);
    if (operation == 1) insert(pool, context, map, read_key());
    if (operation == 2) take(context, map, read_key());
    if (operation == 3) must(map_clear(context, map) == 0);
    if (operation == 4) {
      uint64_t key = read_key();
      if (!map_lookup(context, map, key)) must(map_insert_new(context, map, key, sizeof(struct item), TOID_TYPE_NUM(struct item), NULL, NULL) == 0);
    }
    if (operation == 5) print_i64(map_lookup(context, map, read_key()));
  }
}

static int has_index(const struct map_ops *operations) {
  return operations == MAP_HASHMAP_TX || operations == MAP_HASHMAP_ATOMIC || operations == MAP_HASHMAP_RP;
}

static void create(void) {
  PMEMobjpool *pool = pmemobj_create(POOL, POBJ_LAYOUT_NAME(driver), PMEMOBJ_MIN_POOL, 0666);
  must(pool != NULL);
  TOID(struct root) root = POBJ_ROOT(pool, struct root);
  for (int kind = 0; kind < MAPS; kind++) {
    struct map_ctx *context = map_ctx_init(operations_of(kind), pool);
    must(map_create(context, &D_RW(root)->maps[kind], NULL) == 0);
    map_ctx_free(context);
  }
  pmemobj_close(pool);
}

int main(void) {
  if (file_exists(POOL) != 0) {
    create();
    return 0;
  }
  long long kind = read_i64();
  hippo_assume(kind >= 0 && kind < MAPS);
  PMEMobjpool *pool = pmemobj_open(POOL, POBJ_LAYOUT_NAME(driver));
  must(pool != NULL);
  TOID(struct root) root = POBJ_ROOT(pool, struct root);
  const struct map_ops *operations = operations_of(kind);
  struct map_ctx *context = map_ctx_init(operations, pool);
  TOID(struct map) map = D_RO(root)->maps[kind];
  if (has_index(operations)) map_init(context, map);
  work(pool, context, map);
  map_ctx_free(context);
  pmemobj_close(pool);
  return 0;
}
