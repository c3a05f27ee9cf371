// QDBM's lists, maps and heaps, in persistent memory.
#include "cabin.h"
#include "draw.h"
#include <stdio.h>
#include <stdlib.h>
#include <string.h>

static long long sum;

static void take(const char *text, int size) {
  for (int i = 0; i < size; i++) sum = (sum * 31 + text[i]) % 1000000007;
}

int main(void) {
  CBMAP *map = cbmapopen();
  char key[16], value[32];
  int length, size;
  for (int i = 0; i < 400; i++) {
    length = snprintf(key, sizeof key, "k%u", draw(150));
    size = snprintf(value, sizeof value, "%d:%u", i, draw(9999));
    if (draw(4) == 0)
      cbmapout(map, key, length);
    else
      cbmapput(map, key, length, value, size, (int)draw(2));
  }
  cbmapiterinit(map);
  for (const char *found; (found = cbmapiternext(map, &length));) {
    const char *got = cbmapget(map, found, length, &size);
    take(got, size);
  }
  print_i64(cbmaprnum(map));
  print_i64(sum);
  CBLIST *keys = cbmapkeys(map);
  cblistsort(keys);
  for (int i = 0; i < cblistnum(keys); i++) {
    const char *found = cblistval(keys, i, &length);
    take(found, length);
  }
  cblistclose(keys);
  CBLIST *cells = cbcsvcells("one,\"two, three\",four,\"five \"\"six\"\"\"");
  for (int i = 0; i < cblistnum(cells); i++) take(cblistval(cells, i, NULL), (int)strlen(cblistval(cells, i, NULL)));
  cblistclose(cells);
  char *encoded = cbbaseencode("persistent memory", 17);
  take(encoded, (int)strlen(encoded));
  free(encoded);
  print_i64(sum);
  cbmapclose(map);
  return 0;
}
