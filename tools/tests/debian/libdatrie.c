// Libdatrie's tries, in persistent memory.
#include "draw.h"
#include <datrie/trie.h>

static AlphaChar key[8];

static const AlphaChar *drawn_key(void) {
  int length = 2 + (int)draw(5);
  for (int i = 0; i < length; i++) key[i] = 'a' + draw(6);
  key[length] = 0;
  return key;
}

static Bool add(const AlphaChar *found, TrieData data, void *sum) {
  for (; *found; found++) *(long long *)sum = (*(long long *)sum * 31 + *found + data) % 1000000007;
  return TRUE;
}

int main(void) {
  AlphaMap *letters = alpha_map_new();
  alpha_map_add_range(letters, 'a', 'z');
  Trie *trie = trie_new(letters);
  long long stored = 0, found = 0, sum = 0;
  for (int i = 0; i < 60; i++) stored += trie_store(trie, drawn_key(), (TrieData)draw(1000));
  for (int i = 0; i < 60; i++) {
    TrieData data;
    found += trie_retrieve(trie, drawn_key(), &data) ? data + 1 : 0;
  }
  for (int i = 0; i < 30; i++) found -= trie_delete(trie, drawn_key());
  trie_enumerate(trie, add, &sum);
  print_i64(stored);
  print_i64(found);
  print_i64(sum);
  trie_free(trie);
  alpha_map_free(letters);
  return 0;
}
