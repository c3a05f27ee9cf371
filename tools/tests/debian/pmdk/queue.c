// PMDK's example `queue`: its commands, run one after the other on one pool. What they show is read from the pool.
#include <hippo.h>
#define main run_command
#define assert(condition) ((condition) ? (void)0 : __builtin_trap())
#include "queue/queue.c"
#undef main

static void command(int count, char *operation, char *word) {
  char *words[] = {"queue", "data.pool", operation, word, NULL};
  print_i64(run_command(count, words));
}

static void show(void) {
  PMEMobjpool *pool = pmemobj_open("data.pool", POBJ_LAYOUT_NAME(queue));
  TOID(struct root) root = POBJ_ROOT(pool, struct root);
  const struct queue *queue = D_RO(D_RO(root)->queue);
  print_i64((long long)queue_nentries((struct queue *)queue));
  for (size_t i = queue->front; i < queue->back; i++) {
    const struct entry *entry = D_RO(queue->entries[i % queue->capacity]);
    for (size_t j = 0; j < entry->len; j++) print_i64(entry->data[j]);
  }
  pmemobj_close(pool);
}

int main(void) {
  PMEMobjpool *pool = pmemobj_create("data.pool", POBJ_LAYOUT_NAME(queue), PMEMOBJ_MIN_POOL, 0666);
  if (!pool) return 1;
  pmemobj_close(pool);
  command(4, "new", "8");
  char *const words[] = {"a", "bcd", "efghijkl", "m", "nopq"};
  for (int round = 0; round < 3; round++) {
    for (int i = 0; i < 5; i++) command(4, "enqueue", words[i]);
    show();
    for (int i = 0; i < 4; i++) command(3, "dequeue", NULL);
    show();
  }
  return 0;
}
