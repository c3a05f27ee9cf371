// An element moves from one queue to another. Bug: it leaves the first queue before it is in the second, so that a
// crash loses it.
#include "common.h"

PERSISTENT LINE struct {
  LINE uint64_t in[2][8];
  LINE uint64_t where[8];
} q;

static void recover(void) {
  for (int i = 0; i < 8; i++) HOLDS(!q.where[i] || (q.in[0][i] + q.in[1][i] >= 1));
  for (int i = 0; i < 8; i++)
    if (q.in[0][i] && q.in[1][i]) {
      q.in[0][i] = 0;
      pmem_persist(&q.in[0][i], 8);
    }
}

static void put(uint64_t i) {
  q.in[0][i] = 1;
  pmem_persist(&q.in[0][i], 8);
  q.where[i] = 1;
  pmem_persist(&q.where[i], 8);
}

static void move(uint64_t i) {
  if (!q.in[0][i]) return;
#if BUG
  q.in[0][i] = 0;
  pmem_persist(&q.in[0][i], 8);
  q.in[1][i] = 1;
  pmem_persist(&q.in[1][i], 8);
#else
  q.in[1][i] = 1;
  pmem_persist(&q.in[1][i], 8);
  q.in[0][i] = 0;
  pmem_persist(&q.in[0][i], 8);
#endif
}

int main(void) {
  recover();
  for (long long op; (op = read_i64());) {
    uint64_t i = read_i64() & 7;
    if (op == 1)
      put(i);
    else if (op == 2)
      move(i);
    else
      print_i64(q.in[0][i] * 2 + q.in[1][i]);
  }
  return 0;
}
