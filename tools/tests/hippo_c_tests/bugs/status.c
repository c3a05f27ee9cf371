// A recovery that answers by the number that main returns. Bug: the two halves are not ordered.
#include "common.h"

PERSISTENT LINE struct {
  LINE uint64_t sum;
  LINE uint64_t part[8];
  LINE uint64_t log[2];
} s;

static int recover(void) {
  if (s.log[0]) {
    s.part[s.log[0] & 7] = s.log[1];
    pmem_persist(&s.part[s.log[0] & 7], 8);
  }
  uint64_t sum = 0;
  for (int i = 0; i < 8; i++) sum += s.part[i];
  if (s.log[0]) {
    s.sum = sum;
    pmem_persist(&s.sum, 8);
    s.log[0] = 0;
    pmem_persist(s.log, 8);
  }
  return sum == s.sum;
}

static void set(uint64_t i, uint64_t value) {
  s.log[1] = value;
  pmem_persist(&s.log[1], 8);
  s.log[0] = 8 + i;
#if !BUG
  pmem_persist(s.log, 8);
#endif
  uint64_t before = s.part[i];
  s.part[i] = value;
  pmem_persist(&s.part[i], 8);
  s.sum += value - before;
  pmem_persist(&s.sum, 8);
  s.log[0] = 0;
  pmem_persist(s.log, 8);
}

int main(void) {
  if (!recover()) return 1;
  for (long long op; (op = read_i64());) {
    uint64_t i = read_i64() & 7;
    if (op == 1)
      set(i, read_i64() & 1023);
    else
      print_i64(s.part[i]);
  }
  return 0;
}
