// PMDK's example of a log: appends, one of several parts, and a rewind, by calls of its main.
#define main log_main
#include "log.c"
#undef main
#include <hippo.h>

static void print_pool(void) {
  struct log_ctx ctx;
  if (log_init(&ctx, "data.pool")) return;
  const unsigned char *bytes = pmem2_map_get_address(ctx.map);
  long long sum = 0;
  for (int i = 0; i < 4096; i++) sum = (sum * 31 + bytes[i]) % 1000000007;
  print_i64(sum);
  log_fini(&ctx);
}

int main(void) {
  char *append[] = {"log", "data.pool", "append", "a first record", "append", "a second record", NULL};
  char words[] = "one\0two"; // the example takes its words to follow one another, as those of a command line do
  char *parts[] = {"log", "data.pool", "appendv", "2", words, words + 4, NULL};
  char *rewind[] = {"log", "data.pool", "rewind", "append", "the only record", NULL};
  print_i64(log_main(6, append));
  print_pool();
  print_i64(log_main(6, parts));
  print_pool();
  print_i64(log_main(5, rewind));
  print_pool();
  return 0;
}
