// Recovery rolls two records forward. Bug: it clears the state before the second record is durable, so that a crash in
// recovery loses it.
#include "common.h"

PERSISTENT LINE struct {
  LINE uint64_t state;
  LINE uint64_t value;
  LINE uint64_t a;
  LINE uint64_t b;
} s;

static void finish(void) {
  s.a = s.value;
  pmem_flush(&s.a, 8);
#if BUG
  pmem_drain();
  s.b = s.value;
  pmem_flush(&s.b, 8);
#else
  s.b = s.value;
  pmem_flush(&s.b, 8);
  pmem_drain();
#endif
  s.state = 0;
  pmem_flush(&s.state, 8);
  pmem_drain();
}

static void recover(void) {
  if (s.state) finish();
  HOLDS(s.a == s.b);
}

static void set(uint64_t value) {
  s.value = value;
  pmem_persist(&s.value, 8);
  s.state = 1;
  pmem_persist(&s.state, 8);
  s.a = value;
  pmem_flush(&s.a, 8);
  s.b = value;
  pmem_flush(&s.b, 8);
  pmem_drain();
  s.state = 0;
  pmem_persist(&s.state, 8);
}

int main(void) {
  recover();
  for (long long op; (op = read_i64());) {
    if (op == 1)
      set(read_i64());
    else
      print_i64(s.a + s.b);
  }
  return 0;
}
