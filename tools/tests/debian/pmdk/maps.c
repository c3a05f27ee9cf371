// PMDK's maps over the whole of libpmemobj. Numbers of the input: the map, or 7 to create the pool alone, then operations: 1 and a key inserts, 2 and a key removes, 3 and
// any number puts a new object in the place of a spare one, 0 ends. The run creates the pool if there is none that opens, and the map.
// A run that starts from what a power cut left opens the pool, and traps if the map is in no state that some of the operations, from the
// first on, give, if an object has lost its type, or if the map no longer works.
#include <ex_common.h>
#include <hippo.h>
#include <libpmemobj.h>
#include <stdio.h>
#include <stdlib.h>
#include <string.h>
#include "map.h"
#include "map_btree.h"
#include "map_ctree.h"
#include "map_hashmap_atomic.h"
#include "map_hashmap_rp.h"
#include "map_hashmap_tx.h"
#include "map_rbtree.h"
#include "map_skiplist.h"

POBJ_LAYOUT_BEGIN(driver);
POBJ_LAYOUT_ROOT(driver, struct root);
POBJ_LAYOUT_TOID(driver, struct item);
POBJ_LAYOUT_END(driver);

struct item {
  uint64_t data;
};
struct root {
  TOID(struct map) map;
  TOID(struct item) spare;
};

#define POOL "data.pool"
enum { KEYS = 256 };

// 1 when the pool and its map are there, and before the first operation.
PERSISTENT static long long ready;

static const struct map_ops *operations_of(long long kind) {
  switch (kind) {
  case 0: return MAP_BTREE;
  case 1: return MAP_CTREE;
  case 2: return MAP_RBTREE;
  case 3: return MAP_HASHMAP_TX;
  case 4: return MAP_HASHMAP_ATOMIC;
  case 5: return MAP_HASHMAP_RP;
  case 6: return MAP_SKIPLIST;
  case 7: return NULL;
  }
  exit(1);
}

static void must(int holds) {
  if (!holds) abort();
}

static int construct(PMEMobjpool *pool, void *block, void *key) {
  struct item *item = block;
  item->data = *(uint64_t *)key * 7 + 1;
  pmemobj_persist(pool, item, sizeof *item);
  return 0;
}

static unsigned char found[KEYS], wanted[KEYS];

static int visit(uint64_t key, PMEMoid value, void *argument) {
  (void)argument;
  struct item *item = pmemobj_direct(value);
  must(pmemobj_type_num(value) == TOID_TYPE_NUM(struct item));
  must(key < KEYS && !found[key] && item->data == key * 7 + 1);
  found[key] = 1;
  return 0;
}

// Finds all keys by a walk, and looks up each; prints how many there are, and a sum of them.
static void collect(struct map_ctx *context, TOID(struct map) map) {
  memset(found, 0, sizeof found);
  map_foreach(context, map, visit, NULL);
  long long sum = 7, count = 0;
  for (int key = 0; key < KEYS; key++) {
    must(!map_lookup(context, map, key) == !found[key]);
    must(OID_IS_NULL(map_get(context, map, key)) == !found[key]);
    if (found[key]) sum = sum * 31 + key, count++;
  }
  if (context->ops->count) must(map_count(context, map) == (size_t)count);
  print_i64(count);
  print_i64(sum);
}

// Whether the first operations of the input, however many, give the keys that were found.
static int is_prefix(void) {
  int same = memcmp(found, wanted, sizeof wanted) == 0;
  for (long long operation; (operation = read_i64()) != 0;) {
    long long key = read_i64();
    if (operation != 3) wanted[key] = operation == 1;
    same |= memcmp(found, wanted, sizeof wanted) == 0;
  }
  return same;
}

static PMEMoid new_item(PMEMobjpool *pool, uint64_t key) {
  TOID(struct item) item;
  must(POBJ_NEW(pool, &item, struct item, construct, &key) == 0);
  return item.oid;
}

// The new object has no constructor, so no fence of one comes between its header and the log that allocates it.
static void replace_spare(PMEMobjpool *pool, TOID(struct root) root) {
  if (!TOID_IS_NULL(D_RO(root)->spare)) POBJ_FREE(&D_RW(root)->spare);
  must(POBJ_ALLOC(pool, &D_RW(root)->spare, struct item, sizeof(struct item), NULL, NULL) == 0);
}

static void check_spare(TOID(struct root) root) {
  if (TOID_IS_NULL(D_RO(root)->spare)) return;
  must(pmemobj_type_num(D_RO(root)->spare.oid) == TOID_TYPE_NUM(struct item));
  must(pmemobj_alloc_usable_size(D_RO(root)->spare.oid) >= sizeof(struct item));
}

static void start(struct map_ctx *context, TOID(struct root) root) {
  const struct map_ops *operations = context->ops;
  int has_index = operations == MAP_HASHMAP_TX || operations == MAP_HASHMAP_ATOMIC || operations == MAP_HASHMAP_RP;
  if (has_index) map_init(context, D_RW(root)->map);
}

static void recover(PMEMobjpool *pool, struct map_ctx *context, TOID(struct root) root) {
  must(map_check(context, D_RW(root)->map) == 0);
  start(context, root);
  collect(context, D_RO(root)->map);
  check_spare(root);
  must(is_prefix());
  must(map_insert(context, D_RW(root)->map, KEYS - 1, new_item(pool, KEYS - 1)) == 0);
  must(!OID_IS_NULL(map_remove(context, D_RW(root)->map, KEYS - 1)));
  replace_spare(pool, root);
}

static void work(PMEMobjpool *pool, struct map_ctx *context, TOID(struct root) root) {
  if (TOID_IS_NULL(D_RO(root)->map))
    must(map_create(context, &D_RW(root)->map, NULL) == 0);
  else
    start(context, root);
  ready = 1;
  pmem_persist(&ready, sizeof ready);
  for (long long operation; (operation = read_i64()) != 0;) {
    uint64_t key = (uint64_t)read_i64();
    if (operation == 1) {
      print_i64(map_insert(context, D_RW(root)->map, key, new_item(pool, key)));
    } else if (operation == 2) {
      PMEMoid item = map_remove(context, D_RW(root)->map, key);
      print_i64(!OID_IS_NULL(item));
      if (!OID_IS_NULL(item)) pmemobj_free(&item);
    } else {
      replace_spare(pool, root);
    }
  }
  collect(context, D_RO(root)->map);
  check_spare(root);
}

// The pool that is there. If a power cut ended its creation, it does not open, and is created again.
static PMEMobjpool *open_pool(void) {
  int exists = file_exists(POOL) == 0;
  PMEMobjpool *pool = exists ? pmemobj_open(POOL, POBJ_LAYOUT_NAME(driver)) : NULL;
  if (pool) return pool;
  must(!ready);
  if (exists) remove(POOL);
  return pmemobj_create(POOL, POBJ_LAYOUT_NAME(driver), PMEMOBJ_MIN_POOL, 0666);
}

int main(void) {
  const struct map_ops *operations = operations_of(read_i64());
  PMEMobjpool *pool = open_pool();
  must(pool != NULL);
  TOID(struct root) root = POBJ_ROOT(pool, struct root);
  if (operations) {
    struct map_ctx *context = map_ctx_init(operations, pool);
    if (ready)
      recover(pool, context, root);
    else
      work(pool, context, root);
    map_ctx_free(context);
  }
  pmemobj_close(pool);
  return 0;
}
