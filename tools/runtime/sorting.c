// Sorting and binary search. The sort is a merge sort, so elements that compare equal keep their order. If the heap has
// no room for a second array it is an insertion sort, which keeps the order too.
#include <stdlib.h>
#include <string.h>

// A comparison of two elements, with the argument that qsort_r passes on.
struct order {
  int (*plain)(const void *, const void *);
  int (*with_argument)(const void *, const void *, void *);
  void *argument;
};

static int compare(const struct order *order, const void *left, const void *right) {
  return order->plain ? order->plain(left, right) : order->with_argument(left, right, order->argument);
}

static void exchange(unsigned char *left, unsigned char *right, size_t size) {
  for (; size; size--, left++, right++) {
    unsigned char kept = *left;
    *left = *right;
    *right = kept;
  }
}

static void insertion_sort(unsigned char *base, size_t count, size_t size, const struct order *order) {
  for (unsigned char *next = base + size; count > 1; count--, next += size)
    for (unsigned char *at = next; at > base && compare(order, at - size, at) > 0; at -= size)
      exchange(at - size, at, size);
}

// Merges two sorted runs that follow one another in `from` into `to`; an element of the first goes before its equals.
static void merge(unsigned char *to, const unsigned char *from, size_t first, size_t count, size_t size,
                  const struct order *order) {
  const unsigned char *left = from, *middle = from + first * size, *right = middle, *end = from + count * size;
  for (; left < middle || right < end; to += size) {
    int from_left = right == end || (left < middle && compare(order, left, right) <= 0);
    memcpy(to, from_left ? left : right, size);
    if (from_left)
      left += size;
    else
      right += size;
  }
}

// Sorts `count` elements by halves; `spare` has room for as many.
static void merge_sort(unsigned char *base, unsigned char *spare, size_t count, size_t size,
                       const struct order *order) {
  if (count < 2) return;
  size_t half = count / 2;
  merge_sort(base, spare, half, size, order);
  merge_sort(base + half * size, spare, count - half, size, order);
  memcpy(spare, base, count * size);
  merge(base, spare, half, count, size, order);
}

static void sort(void *base, size_t count, size_t size, const struct order *order) {
  if (count < 2 || size == 0) return;
  unsigned char *spare = count > 4 ? malloc(count * size) : NULL;
  if (spare)
    merge_sort(base, spare, count, size, order);
  else
    insertion_sort(base, count, size, order);
  free(spare);
}

void qsort(void *base, size_t count, size_t size, int (*plain)(const void *, const void *)) {
  struct order order = {plain, NULL, NULL};
  sort(base, count, size, &order);
}

void qsort_r(void *base, size_t count, size_t size, int (*with_argument)(const void *, const void *, void *),
             void *argument) {
  struct order order = {NULL, with_argument, argument};
  sort(base, count, size, &order);
}

void *bsearch(const void *key, const void *base, size_t count, size_t size,
              int (*plain)(const void *, const void *)) {
  const unsigned char *from = base;
  while (count) {
    const unsigned char *middle = from + count / 2 * size;
    int found = plain(key, middle);
    if (found == 0) return (void *)middle;
    if (found > 0) from = middle + size;
    count = found > 0 ? count - count / 2 - 1 : count / 2;
  }
  return NULL;
}
