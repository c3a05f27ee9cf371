// A text with its length in another line. Bug: the length is durable before the bytes.
#include "common.h"

PERSISTENT LINE struct {
  LINE uint64_t length;
  LINE char text[128];
} s;

static void recover(void) {
  for (uint64_t i = 0; i < s.length; i++) HOLDS(s.text[i] != 0);
}

static void append(uint64_t count) {
  uint64_t from = s.length;
  if (from + count > 128) return;
  for (uint64_t i = 0; i < count; i++) s.text[from + i] = 'a' + (char)((from + i) % 26);
#if !BUG
  pmem_persist(s.text + from, count);
#endif
  s.length = from + count;
  pmem_persist(&s.length, 8);
#if BUG
  pmem_persist(s.text + from, count);
#endif
}

int main(void) {
  recover();
  for (long long op; (op = read_i64());) {
    if (op == 1)
      append(read_i64() & 31);
    else
      print_i64(s.length);
  }
  return 0;
}
