#include <hippo.h>
PERSISTENT struct { long count, sum; } totals;

static void add(long number) {
  totals.sum += number;
  pmem_persist(&totals.sum, sizeof totals.sum);
  totals.count += 1;
}
int main(void) {
  add(read_i64());
  return 0;
}
