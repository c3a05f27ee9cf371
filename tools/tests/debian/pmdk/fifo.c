// PMDK's example `linkedlist/fifo`: letters go in and out, one command after the other on one pool.
#include <hippo.h>
#define main run_command
#include "linkedlist/fifo.c"
#undef main

static void show(void) {
  PMEMobjpool *pool = pmemobj_open("data.pool", POBJ_LAYOUT_NAME(list));
  TOID(struct fifo_root) root = POBJ_ROOT(pool, struct fifo_root);
  TOID(struct tqnode) node;
  POBJ_TAILQ_FOREACH(node, &D_RO(root)->head, tnd) print_i64(D_RO(node)->data);
  print_i64(-1);
  pmemobj_close(pool);
}

static void command(int count, const char *operation, const char *letter) {
  const char *words[] = {"fifo", "data.pool", operation, letter, NULL};
  print_i64(run_command(count, words));
}

int main(void) {
  for (int round = 0; round < 4; round++) {
    command(4, "insert", "x");
    command(4, "insert", (const char[]){(char)('a' + round), 0});
    show();
    command(3, "remove", NULL);
    command(3, "print", NULL);
    show();
  }
  return 0;
}
