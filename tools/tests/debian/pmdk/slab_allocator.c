// PMDK's example `slab_allocator`: it runs on a new pool, and then twice on the same one.
#include <hippo.h>
#define main run_command
#include "slab_allocator/main.c"
#undef main

static void show(void) {
  PMEMobjpool *pool = pmemobj_open("data.pool", POBJ_LAYOUT_NAME(btree));
  TOID(struct root) root = POBJ_ROOT(pool, struct root);
  print_i64(TOID_IS_NULL(D_RO(root)->foop));
  print_i64(TOID_IS_NULL(D_RO(root)->barp));
  print_i64((long long)pmemobj_alloc_usable_size(D_RO(root)->foop.oid));
  print_i64((long long)pmemobj_alloc_usable_size(D_RO(root)->barp.oid));
  PMEMoid object;
  int count = 0;
  POBJ_FOREACH(pool, object) count++;
  print_i64(count);
  pmemobj_close(pool);
}

int main(void) {
  char *words[] = {"slab_allocator", "data.pool", NULL};
  for (int round = 0; round < 3; round++) {
    print_i64(run_command(2, words));
    show();
  }
  return 0;
}
