// bzip2: a text is compressed into persistent memory and comes back.
#include "bzlib.h"
#include "draw.h"
#include <string.h>

enum { SIZE = 3000 };
static char text[SIZE], back[SIZE];
PERSISTENT static char packed[2 * SIZE];

void bz_internal_error(int number) { print_i64(number); }

int main(void) {
  static const char *const WORDS[] = {"store ", "flush ", "fence ", "cache line ", "durable ", "log, ", "tree. "};
  for (size_t at = 0; at < SIZE - 16;) {
    const char *word = WORDS[draw(7)];
    memcpy(text + at, word, strlen(word));
    at += strlen(word);
  }
  unsigned size = sizeof packed, size_back = sizeof back;
  print_i64(BZ2_bzBuffToBuffCompress(packed, &size, text, SIZE, 1, 0, 30));
  print_i64(size);
  long long sum = 0;
  for (unsigned i = 0; i < size; i++) sum = (sum * 31 + (unsigned char)packed[i]) % 1000000007;
  print_i64(sum);
  print_i64(BZ2_bzBuffToBuffDecompress(back, &size_back, packed, size, 1, 0));
  print_i64(memcmp(back, text, SIZE));
  return 0;
}
