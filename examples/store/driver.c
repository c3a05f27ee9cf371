// Puts some numbers, deletes one, and replies after each call.
#include "engine.h"

#include <hippo.h>

static void reply(long number) { print_i64(number); }

int main(void) {
  for (long i = 1; i <= 5; i++) {
    reply(put(7 * i % 10));
    tree_insert(7 * i % 10);
  }
  reply(del(4));
  return 0;
}
