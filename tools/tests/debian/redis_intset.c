// Redis's sorted set of integers, in persistent memory; its encoding widens as the numbers do.
#include "draw.h"
#include "intset.h"
#include <stdlib.h>

int main(void) {
  intset *set = intsetNew();
  long long sum = 0;
  for (int i = 0, rounds = ROUNDS(400); i < rounds; i++) {
    int64_t number = (int64_t)draw(300) - 150;
    if (i > 200) number <<= i > 300 ? 40 : 14;
    if (draw(4) == 0) {
      int removed;
      set = intsetRemove(set, number, &removed);
      sum += removed;
    } else {
      uint8_t added;
      set = intsetAdd(set, number, &added);
      sum += added;
    }
    sum = sum * 3 % 1000000007 + intsetFind(set, number - 1);
  }
  for (uint32_t place = 0; place < intsetLen(set); place++) {
    int64_t number;
    intsetGet(set, place, &number);
    sum = (sum * 31 + number % 1000) % 1000000007;
  }
  print_i64(intsetLen(set));
  print_i64(intsetMin(set));
  print_i64(intsetMax(set));
  print_i64((long long)intsetBlobLen(set));
  print_i64(sum);
  return 0;
}
