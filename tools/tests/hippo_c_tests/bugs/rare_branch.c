// A table that grows at a certain size. Bug: this branch, which the given input does not take, has no fence.
#include "common.h"

PERSISTENT LINE struct {
  LINE uint64_t size;
  LINE uint64_t cells[64];
} s;

static void recover(void) {
  HOLDS(s.size <= 64);
  for (uint64_t i = 0; i < s.size; i++) HOLDS(s.cells[i] == i + 1);
}

static void grow(uint64_t by) {
  if (s.size + by > 64) return;
  for (uint64_t i = 0; i < by; i++) s.cells[s.size + i] = s.size + i + 1;
  pmem_flush(&s.cells[s.size], by * 8);
  if (!BUG || by < 9) pmem_drain();
  s.size += by;
  pmem_persist(&s.size, 8);
}

int main(void) {
  recover();
  for (long long op; (op = read_i64());) {
    if (op == 1)
      grow(read_i64() & 15);
    else
      print_i64(s.size);
  }
  return 0;
}
