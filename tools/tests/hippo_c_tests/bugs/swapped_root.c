// A new version is built beside the old one, and the root points to it. Bug: one line of the version is flushed after
// the root.
#include "common.h"

PERSISTENT LINE struct {
  LINE uint64_t root;
  LINE uint64_t version[2][16];
} s;

static void recover(void) {
  uint64_t *v = s.version[s.root & 1];
  for (int i = 1; i < 16; i++) HOLDS(v[i] == v[0]);
}

static void set(uint64_t value) {
  uint64_t next = 1 - (s.root & 1), *v = s.version[next];
  for (int i = 0; i < 16; i++) v[i] = value;
#if BUG
  pmem_persist(v, 64);
  s.root = next;
  pmem_persist(&s.root, 8);
  pmem_persist(v + 8, 64);
#else
  pmem_persist(v, 128);
  s.root = next;
  pmem_persist(&s.root, 8);
#endif
}

int main(void) {
  recover();
  for (long long op; (op = read_i64());) {
    if (op == 1)
      set(read_i64());
    else
      print_i64(s.version[s.root & 1][0]);
  }
  return 0;
}
