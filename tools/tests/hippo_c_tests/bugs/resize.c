// A vector that moves to a larger place when it is full. Place and capacity change by one store.
// Bug: that store has no fence before it, so a power cut may keep it and lose the elements that were copied.
#include "common.h"

#define WORDS 256
#define FIRST 4
#define LARGEST 64

PERSISTENT struct {
  LINE uint64_t place; // the capacity in the upper half, the first word in the lower one
  LINE uint64_t size;
  LINE uint64_t words[WORDS];
} vector;

static uint64_t capacity(void) { return vector.place >> 32; }
static uint64_t *elements(void) { return &vector.words[vector.place & 0xffffffff]; }

static void recover(void) {
  for (uint64_t i = 0; i < vector.size; i++) HOLDS(elements()[i] != 0);
}

static void move(void) {
  uint64_t larger = capacity() ? 2 * capacity() : FIRST, first = (vector.place & 0xffffffff) + capacity();
  for (uint64_t i = 0; i < vector.size; i++) vector.words[first + i] = elements()[i];
  pmem_flush(&vector.words[first], vector.size * sizeof *vector.words);
  if (!BUG) pmem_drain();
  vector.place = larger << 32 | first;
  PERSIST(vector.place);
}

static void push(uint64_t element) {
  if (vector.size == LARGEST) return;
  if (vector.size == capacity()) move();
  elements()[vector.size] = element + 1;
  PERSIST(elements()[vector.size]);
  vector.size++;
  PERSIST(vector.size);
}

int main(void) {
  recover();
  for (long long command; (command = read_i64());) {
    if (command == 1) push((uint64_t)read_i64() & 0xffff);
    else
      for (uint64_t i = 0; i < vector.size; i++) print_i64((long long)elements()[i]);
  }
  return 0;
}
