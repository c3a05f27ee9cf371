// A counter prints each number that it has given out. Bug: it prints before the number is durable, so that a crash
// gives it out again.
#include "common.h"

PERSISTENT LINE struct { uint64_t given; } s;

static void recover(void) { HOLDS(s.given >= (uint64_t)hippo_prints()); }

static void give(void) {
  s.given++;
#if BUG
  print_i64(s.given);
  pmem_persist(&s.given, 8);
#else
  pmem_persist(&s.given, 8);
  print_i64(s.given);
#endif
}

int main(void) {
  recover();
  hippo_recovered();
  for (long long left = read_i64(); left > 0; left--) give();
  return 0;
}
