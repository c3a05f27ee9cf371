// GDBM: a hash table in a mapped file.
#include "draw.h"
#include "gdbm.h"
#include <stdio.h>
#include <stdlib.h>

static GDBM_FILE file;

static void change(int count) {
  char key[16], value[80];
  for (int i = 0; i < count; i++) {
    datum k = {key, snprintf(key, sizeof key, "key%u", draw(200))};
    datum v = {value, snprintf(value, sizeof value, "value %d %.*s", i, (int)draw(40), "........................................")};
    int result = draw(4) ? gdbm_store(file, k, v, GDBM_REPLACE) : gdbm_delete(file, k);
    if (result && gdbm_errno != GDBM_ITEM_NOT_FOUND) print_i64(-gdbm_errno);
  }
}

static void print_file(void) {
  long long count = 0, sum = 0;
  datum key = gdbm_firstkey(file);
  while (key.dptr) {
    datum value = gdbm_fetch(file, key), next = gdbm_nextkey(file, key);
    for (int i = 0; i < value.dsize; i++) sum = sum * 31 % 1000003 + value.dptr[i];
    free(value.dptr);
    free(key.dptr);
    key = next;
    count++;
  }
  print_i64(count);
  print_i64(sum);
}

int main(void) {
  file = gdbm_open("data.gdbm", 512, GDBM_WRCREAT, 0600, NULL);
  if (!file) return 1;
  change(250);
  print_file();
  print_i64(gdbm_sync(file));
  change(150);
  print_i64(gdbm_close(file));
  file = gdbm_open("data.gdbm", 0, GDBM_WRITER, 0600, NULL);
  if (!file) return 2;
  print_file();
  print_i64(gdbm_close(file));
  return 0;
}
