// Two weights whose sum is always 1000. Right: a new pair is written into the spare place, and then chosen.
// Bug: the pair is changed in place, and a power cut may come between its two words.
#include "common.h"

#define SUM 1000

PERSISTENT struct {
  uint64_t chosen;
  LINE struct {
    uint64_t left, right;
  } pairs[2];
} scales;

static void recover(void) {
  uint64_t left = scales.pairs[scales.chosen].left, right = scales.pairs[scales.chosen].right;
  HOLDS(left + right == SUM || (left == 0 && right == 0));
}

static void weigh(uint64_t left) {
  uint64_t place = BUG ? scales.chosen : 1 - scales.chosen;
  scales.pairs[place].left = left;
  scales.pairs[place].right = SUM - left;
  PERSIST(scales.pairs[place]);
  scales.chosen = place;
  PERSIST(scales.chosen);
}

int main(void) {
  recover();
  for (long long command; (command = read_i64());) {
    if (command == 1) {
      weigh((uint64_t)read_i64());
    } else {
      print_i64((long long)scales.pairs[scales.chosen].left);
      print_i64((long long)scales.pairs[scales.chosen].right);
    }
  }
  return 0;
}
