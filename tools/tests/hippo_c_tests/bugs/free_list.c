// A list of free blocks. Bug: a block is marked as used before it is out of the list, and the head is flushed late.
#include "common.h"

PERSISTENT LINE struct {
  LINE uint64_t head;
  LINE uint64_t next[8];
  LINE uint64_t used[8];
  LINE uint64_t made;
} s;

static void recover(void) {
  if (!s.made) {
    for (uint64_t i = 0; i < 8; i++) {
      s.next[i] = i + 1;
      s.used[i] = 0;
    }
    s.head = 0;
    pmem_flush(s.next, 64);
    pmem_flush(s.used, 64);
    pmem_persist(&s.head, 8);
    s.made = 1;
    pmem_persist(&s.made, 8);
  }
  for (uint64_t i = s.head, left = 9; i < 8; i = s.next[i]) {
    HOLDS(left-- > 0);
    HOLDS(!s.used[i]);
  }
}

static void take(void) {
  uint64_t i = s.head;
  if (i >= 8) return;
#if BUG
  s.used[i] = 1;
  pmem_persist(&s.used[i], 8);
  s.head = s.next[i];
  pmem_persist(&s.head, 8);
#else
  s.head = s.next[i];
  pmem_persist(&s.head, 8);
  s.used[i] = 1;
  pmem_persist(&s.used[i], 8);
#endif
}

int main(void) {
  recover();
  for (long long op; (op = read_i64());) {
    if (op == 1)
      take();
    else
      print_i64(s.head);
  }
  return 0;
}
