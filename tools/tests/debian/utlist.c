// utlist, utarray and utstring, in persistent memory.
#include "draw.h"
#include "utarray.h"
#include "utlist.h"
#include "utstring.h"

struct item {
  int key;
  struct item *prev, *next;
};

static int by_key(const struct item *left, const struct item *right) { return left->key - right->key; }

static int by_number(const void *left, const void *right) { return *(const int *)left - *(const int *)right; }

static void lists(void) {
  struct item *head = NULL, *item, *next, wanted;
  for (int i = 0; i < 200; i++) {
    item = malloc(sizeof *item);
    item->key = (int)draw(500);
    if (i % 2)
      DL_APPEND(head, item);
    else
      DL_PREPEND(head, item);
  }
  DL_SORT(head, by_key);
  long long sum = 0;
  DL_FOREACH_SAFE(head, item, next) {
    sum = (sum * 31 + item->key) % 1000000007;
    if (item->key % 3 == 0) {
      DL_DELETE(head, item);
      free(item);
    }
  }
  int count;
  DL_COUNT(head, item, count);
  wanted.key = 100;
  DL_SEARCH(head, item, &wanted, by_key);
  print_i64(sum);
  print_i64(count);
  print_i64(item != NULL);
}

static void arrays(void) {
  UT_array *numbers;
  utarray_new(numbers, &ut_int_icd);
  for (int i = 0; i < 100; i++) {
    int number = (int)draw(1000);
    utarray_push_back(numbers, &number);
  }
  utarray_sort(numbers, by_number);
  utarray_erase(numbers, 10, 20);
  long long sum = 0;
  for (int *number = NULL; (number = (int *)utarray_next(numbers, number));) sum = (sum * 31 + *number) % 1000000007;
  print_i64(sum);
  utarray_free(numbers);
}

static void strings(void) {
  UT_string *text;
  utstring_new(text);
  for (int i = 0; i < 60; i++) utstring_printf(text, "%d:%s,", i, i % 2 ? "odd" : "even");
  print_i64((long long)utstring_len(text));
  print_i64(utstring_find(text, 0, "31:odd", 6));
  utstring_free(text);
}

int main(void) {
  lists();
  arrays();
  strings();
  return 0;
}
