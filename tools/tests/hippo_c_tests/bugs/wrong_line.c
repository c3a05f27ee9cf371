// A record over two cache lines. Bug: only the first line is flushed before the record is valid.
#include "common.h"

struct record {
  uint64_t key;
  char text[72];
  uint64_t mark;
};

PERSISTENT LINE struct {
  LINE uint64_t count;
  LINE struct record r[8];
} s;

static void recover(void) {
  for (uint64_t i = 0; i < s.count; i++) HOLDS(s.r[i].mark == s.r[i].key + 1);
}

static void add(uint64_t key) {
  if (s.count == 8) return;
  struct record *r = &s.r[s.count];
  r->key = key;
  r->mark = key + 1;
  pmem_persist(r, BUG ? 8 : sizeof *r);
  s.count++;
  pmem_persist(&s.count, 8);
  if (BUG) pmem_persist(r, sizeof *r);
}

int main(void) {
  recover();
  for (long long op; (op = read_i64());) {
    if (op == 1)
      add(read_i64());
    else
      print_i64(s.count);
  }
  return 0;
}
