// PMDK's example `string_store_tx`: its writer and its reader on one pool; the word that the writer reads is given here.
#include <hippo.h>
#include <stdio.h>
#include <string.h>
#define main run_writer
#define scanf(format, to) (strcpy(to, "persist"), 1)
#include "string_store_tx/writer.c"
#undef main
#undef scanf
#define main run_reader
#define my_root reader_root
#include "string_store_tx/reader.c"
#undef main
#undef my_root

int main(void) {
  char *words[] = {"string_store_tx", "data.pool", NULL};
  print_i64(run_writer(2, words));
  print_i64(run_writer(2, words)); // the pool is there
  print_i64(run_reader(2, words));
  PMEMobjpool *pool = pmemobj_open("data.pool", LAYOUT_NAME);
  const struct my_root *root = pmemobj_direct(pmemobj_root(pool, sizeof(struct my_root)));
  for (const char *at = root->buf; *at; at++) print_i64(*at);
  pmemobj_close(pool);
  return 0;
}
