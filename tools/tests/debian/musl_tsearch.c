// musl's balanced tree of <search.h>, in persistent memory.
#include "draw.h"
#include <search.h>
#include <stdlib.h>

static int compare(const void *left, const void *right) {
  uintptr_t a = (uintptr_t)left, b = (uintptr_t)right;
  return (a > b) - (a < b);
}

static long long sum;

static void visit(const void *node, VISIT order, int depth) {
  if (order == postorder || order == leaf) sum = (sum * 31 + *(const intptr_t *)node * (depth + 1)) % 1000000007;
}

static void forget(void *key) { sum += (intptr_t)key; }

int main(void) {
  void *root = NULL;
  for (int i = 0, rounds = ROUNDS(600); i < rounds; i++) {
    void *key = (void *)(uintptr_t)(draw(300) + 1);
    if (draw(3) == 0)
      sum += tdelete(key, &root, compare) != NULL;
    else
      sum += *(intptr_t *)tsearch(key, &root, compare);
    sum += tfind(key, &root, compare) != NULL;
  }
  print_i64(sum);
  twalk(root, visit);
  print_i64(sum);
  tdestroy(root, forget);
  print_i64(sum);
  return 0;
}
