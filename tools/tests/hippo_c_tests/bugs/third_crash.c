// Recovery counts its tries. Bug: the try that finishes the work is not ordered after it, which shows only after two
// crashes in recovery.
#include "common.h"

PERSISTENT LINE struct {
  LINE uint64_t work;
  LINE uint64_t tries;
  LINE uint64_t x;
  LINE uint64_t y;
} s;

static void recover(void) {
  if (s.work) {
    if (s.tries < 2) {
      s.tries++;
      pmem_persist(&s.tries, 8);
    }
    s.x = s.work;
    pmem_flush(&s.x, 8);
    s.y = s.work;
    pmem_flush(&s.y, 8);
    if (!BUG || s.tries < 2) pmem_drain();
    s.work = 0;
    pmem_flush(&s.work, 8);
    pmem_drain();
  }
  HOLDS(s.x == s.y);
}

static void set(uint64_t value) {
  s.tries = 0;
  pmem_persist(&s.tries, 8);
  s.work = value + 1;
  pmem_persist(&s.work, 8);
  s.x = value + 1;
  pmem_flush(&s.x, 8);
  s.y = value + 1;
  pmem_flush(&s.y, 8);
  pmem_drain();
  s.work = 0;
  pmem_persist(&s.work, 8);
}

int main(void) {
  recover();
  for (long long op; (op = read_i64());) {
    if (op == 1)
      set(read_i64() & 255);
    else
      print_i64(s.x + s.y);
  }
  return 0;
}
