// PMDK's example of a redo log: a sorted list, to which pairs are added by three calls of its main.
#define main redo_main
#include "redo.c"
#undef main
#include <hippo.h>

static int call(int count, char **words) { return redo_main(count, words); }

int main(void) {
  char *first[] = {"redo", "add", "data.pool", "5", "50", "3", "30"};
  char *second[] = {"redo", "add", "data.pool", "9", "90", "1", "10", "4", "40"};
  char *check[] = {"redo", "check", "data.pool"};
  print_i64(call(7, first));
  print_i64(call(9, second));
  print_i64(call(3, check));
  int fd = open("data.pool", O_RDWR);
  struct pmem2_map *map = pool_map(fd, 0);
  struct pool_layout *pool = pmem2_map_get_address(map);
  struct node *node = &pool->nodes[pool->hdr.list_head];
  for (uint64_t i = 0; i < pool->hdr.used_entries; i++, node = node->next == LIST_ENTRY_NONE ? node : &pool->nodes[node->next]) {
    print_i64((long long)node->key);
    print_i64((long long)node->value);
  }
  return 0;
}
