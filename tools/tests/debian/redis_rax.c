// Redis's radix tree, in persistent memory.
#include "draw.h"
#include "rax.h"
#include <stdio.h>

int main(void) {
  rax *tree = raxNew();
  char key[32];
  long long sum = 0;
  for (int i = 0, rounds = ROUNDS(500); i < rounds; i++) {
    unsigned number = draw(400);
    int length = snprintf(key, sizeof key, "%s:%u:%x", number % 3 ? "user" : "using", number / 10, number);
    void *old = NULL;
    if (draw(4) == 0)
      sum += raxRemove(tree, (unsigned char *)key, (size_t)length, &old);
    else
      raxInsert(tree, (unsigned char *)key, (size_t)length, (void *)(intptr_t)(i + 1), &old);
    sum = (sum * 31 + (intptr_t)old) % 1000000007;
  }
  print_i64((long long)raxSize(tree));
  print_i64(sum);
  raxIterator it;
  raxStart(&it, tree);
  raxSeek(&it, ">=", (unsigned char *)"user:2", 6);
  while (raxNext(&it)) sum = (sum * 31 + it.key[it.key_len - 1] + (intptr_t)it.data) % 1000000007;
  raxStop(&it);
  print_i64(sum);
  raxFree(tree);
  return 0;
}
