// Each number that is printed acknowledges one addition, so the sum is at most one ahead of them. Bug: the second addition begins before the
// first one is acknowledged.
#include "common.h"

PERSISTENT LINE uint64_t sum;

static void add(void) {
  sum++;
  PERSIST(sum);
}

int main(void) {
  HOLDS(sum >= (uint64_t)hippo_prints() && sum <= (uint64_t)hippo_prints() + 1);
  if (sum) return 0;
  while (read_i64()) {
    add();
#if BUG
    sum++;
    print_i64(1);
    PERSIST(sum);
#else
    print_i64(1);
    add();
#endif
    print_i64(2);
  }
  return 0;
}
