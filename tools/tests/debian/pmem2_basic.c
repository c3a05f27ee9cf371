// PMDK's first example of libpmem2: one text is written into a file.
#define main basic_main
#include "basic.c"
#undef main
#include <hippo.h>

int main(void) {
  char *words[] = {"basic", "data.pool"}, text[32];
  print_i64(basic_main(2, words));
  int fd = open("data.pool", O_RDONLY);
  print_i64(read(fd, text, sizeof text));
  long long sum = 0;
  for (unsigned i = 0; i < sizeof text; i++) sum = (sum * 31 + text[i]) % 1000000007;
  print_i64(sum);
  return 0;
}
