#include "check.h"
#include <stdlib.h>
#include <string.h>

struct pair {
  int key, place;
  char more[5];
};

static int by_key(const void *left, const void *right) {
  const struct pair *a = left, *b = right;
  return (a->key > b->key) - (a->key < b->key);
}

static int by_number(const void *left, const void *right, void *calls) {
  ++*(int *)calls;
  long a = *(const long *)left, b = *(const long *)right;
  return (a > b) - (a < b);
}

static int by_byte(const void *left, const void *right) { return *(const signed char *)left - *(const signed char *)right; }

static void pairs(unsigned count) {
  struct pair *all = calloc(count + 1, sizeof *all);
  for (unsigned i = 0; i < count; i++) all[i] = (struct pair){(int)draw(20) - 10, (int)i, "ab"};
  qsort(all, count, sizeof *all, by_key);
  for (unsigned i = 0; i < count; i++) {
    note(all[i].key);
    note(all[i].place); // the sort is stable here and natively
    note_bytes(all[i].more, sizeof all[i].more);
  }
  for (int key = -12; key < 12; key++) {
    struct pair wanted = {.key = key};
    struct pair *found = bsearch(&wanted, all, count, sizeof *all, by_key);
    note(found ? found->key : 99);
  }
  free(all);
}

int main(void) {
  for (unsigned count = 0; count < 30; count++) pairs(count);
  pairs(300);
  print_sum();
  long numbers[100];
  for (int i = 0; i < 100; i++) numbers[i] = (long)draw(1000) - 500;
  int calls = 0;
  qsort_r(numbers, 100, sizeof *numbers, by_number, &calls);
  note(calls > 99);
  note_bytes(numbers, sizeof numbers);
  char text[] = "the quick brown fox jumps over the lazy dog";
  qsort(text, strlen(text), 1, by_byte);
  note_bytes(text, sizeof text);
  print_sum();
  return 0;
}
