// Knot's qp-trie, in persistent memory.
#include "contrib/qp-trie/trie.h"
#include "draw.h"
#include <stdio.h>

static unsigned make_key(char *key, unsigned number) {
  return (unsigned)snprintf(key, 24, "%c%x.%u", 'a' + (int)(number % 5), number * 7919u % 4096, number) + 1;
}

int main(void) {
  char key[24];
  trie_t *trie = trie_create(NULL);
  for (unsigned i = 0, rounds = ROUNDS(400); i < rounds; i++) {
    unsigned number = draw(300), length = make_key(key, number);
    if (draw(4) == 0) {
      trie_val_t old = NULL;
      int result = trie_del(trie, (uint8_t *)key, length, &old);
      if (result == 0) print_i64((long long)(intptr_t)old);
    } else {
      *trie_get_ins(trie, (uint8_t *)key, length) = (trie_val_t)(intptr_t)(i + 1);
    }
  }
  print_i64((long long)trie_weight(trie));
  long long sum = 0, place = 0;
  trie_it_t *it = trie_it_begin(trie);
  for (; !trie_it_finished(it); trie_it_next(it)) {
    size_t length;
    const uint8_t *found = trie_it_key(it, &length);
    sum = (sum * 31 + found[0] + (long long)length + ++place * (long long)(intptr_t)*trie_it_val(it)) % 1000000007;
  }
  trie_it_free(it);
  print_i64(sum);
  trie_free(trie);
  return 0;
}
