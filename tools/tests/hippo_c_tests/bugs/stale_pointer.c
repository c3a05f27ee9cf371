// Values in persistent memory, and three times each of them in volatile memory, found by a persistent pointer.
// Bug: recovery takes a pointer that it finds as a sign that the volatile copy is there. No state is bad: only the outputs tell.
#include "common.h"

#define VALUES 16

static uint64_t triples[VALUES];

PERSISTENT struct {
  LINE uint64_t *triples;
  LINE uint64_t values[VALUES];
} store;

static void fill(void) {
  for (int i = 0; i < VALUES; i++) triples[i] = 3 * store.values[i];
  store.triples = triples;
  PERSIST(store.triples);
}

static void recover(void) {
  if (!BUG || !store.triples) fill();
}

static void set(uint64_t place, uint64_t value) {
  store.values[place] = value;
  PERSIST(store.values[place]);
  store.triples[place] = 3 * value;
}

int main(void) {
  recover();
  for (long long command; (command = read_i64());) {
    if (command == 1) {
      uint64_t place = (uint64_t)read_i64() % VALUES;
      set(place, (uint64_t)read_i64());
    } else {
      for (int i = 0; i < VALUES; i++) print_i64((long long)store.triples[i]);
    }
  }
  return 0;
}
