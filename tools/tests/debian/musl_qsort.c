// musl's smoothsort, of an array in persistent memory.
#include "draw.h"
#include <stdlib.h>

PERSISTENT static struct {
  int key;
  char name[12];
} items[400];

static int by_key(const void *left, const void *right) {
  int a = *(const int *)left, b = *(const int *)right;
  return (a > b) - (a < b);
}

int main(void) {
  for (int i = 0; i < 400; i++) {
    items[i].key = (int)draw(1000) - 500;
    items[i].name[i % 12] = (char)i;
  }
  qsort(items, 400, sizeof *items, by_key);
  long long sum = 0;
  for (int i = 0; i < 400; i++)
    for (int k = 0; k < 12; k++) sum = (sum * 31 + items[i].key + items[i].name[k] + 1000) % 1000000007;
  print_i64(sum);
  qsort(items, 100, sizeof *items, by_key);
  print_i64(items[0].key);
  print_i64(items[399].key);
  return 0;
}
