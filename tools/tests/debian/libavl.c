// libavl's balanced tree, in persistent memory.
#include "avl.h"
#include "draw.h"
#include <stdlib.h>

static int compare(const void *left, const void *right) {
  int a = *(const int *)left, b = *(const int *)right;
  return (a > b) - (a < b);
}

int main(void) {
  avl_tree_t *tree = avl_alloc_tree(compare, free);
  for (int i = 0, rounds = ROUNDS(600); i < rounds; i++) {
    int *number = malloc(sizeof *number);
    *number = (int)draw(400);
    if (draw(3) == 0) {
      avl_delete(tree, number);
      free(number);
    } else if (!avl_insert(tree, number)) {
      free(number);
    }
  }
  long long sum = 0;
  for (avl_node_t *node = tree->head; node; node = node->next)
    sum = (sum * 31 + *(int *)node->item * (long long)avl_index(node)) % 1000000007;
  print_i64((long long)avl_count(tree));
  print_i64(sum);
  if (avl_count(tree) > 20) print_i64(*(int *)avl_at(tree, 20)->item);
  avl_free_tree(tree);
  return 0;
}
