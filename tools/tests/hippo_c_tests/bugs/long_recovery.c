// An undo record of one cell. Recovery adds up a big table too, which takes many times as long as the run. Bug: the record is marked valid
// before it is durable.
#include "common.h"

PERSISTENT LINE struct {
  LINE uint64_t is_valid;
  LINE uint64_t saved; // the old value and 1, or 0
  LINE uint64_t cell;
  LINE uint64_t table[2048];
} s;

static void recover(void) {
  uint64_t sum = 0;
  if (!s.is_valid) return;
  HOLDS(s.saved != 0);
  s.cell = s.saved - 1;
  PERSIST(s.cell);
  for (int round = 0; round < 4; round++)
    for (int i = 0; i < 2048; i++) sum = sum * 3 + s.table[i];
  HOLDS(sum == 0);
  s.is_valid = 0;
  PERSIST(s.is_valid);
}

static void add_two(void) {
  s.saved = s.cell + 1;
#if BUG
  FLUSH(s.saved);
#else
  PERSIST(s.saved);
#endif
  s.is_valid = 1;
  PERSIST(s.is_valid);
  s.cell++;
  PERSIST(s.cell);
  s.cell++;
  PERSIST(s.cell);
  s.is_valid = 0;
  PERSIST(s.is_valid);
  s.saved = 0;
  PERSIST(s.saved);
}

int main(void) {
  recover();
  HOLDS(s.cell % 2 == 0);
  while (read_i64()) add_two();
  return 0;
}
