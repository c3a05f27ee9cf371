// Jansson's objects, arrays and texts, in persistent memory.
#include "draw.h"
#include <jansson.h>
#include <stdlib.h>
#include <string.h>

static long long sum_of(const char *text) {
  long long sum = 0;
  for (; *text; text++) sum = (sum * 31 + (unsigned char)*text) % 1000000007;
  return sum;
}

int main(void) {
  json_object_seed(1);
  json_t *root = json_object(), *list = json_array();
  for (int i = 0; i < 12; i++) {
    char key[] = {'k', (char)('a' + i), 0};
    json_object_set_new(root, key, json_integer(draw(1000)));
    json_array_append_new(list, i % 3 ? json_string(key) : json_true());
  }
  json_object_set_new(root, "list", list);
  json_object_del(root, "kc");
  json_array_remove(list, 4);
  char *text = json_dumps(root, JSON_COMPACT | JSON_SORT_KEYS);
  print_i64(sum_of(text));
  json_error_t error;
  json_t *again = json_loads(text, 0, &error);
  print_i64(again && json_equal(root, again));
  print_i64((long long)json_object_size(root) * 100 + (long long)json_array_size(list));
  json_decref(again);
  json_decref(root);
  free(text);
  return 0;
}
