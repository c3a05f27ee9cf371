// LZF, as Redis carries it: a text is compressed into persistent memory and comes back.
#include "draw.h"
#include "lzf.h"
#include <string.h>

enum { SIZE = 6000 };
static char text[SIZE], back[SIZE];
PERSISTENT static unsigned char packed[SIZE];

int main(void) {
  static const char *const WORDS[] = {"store ", "flush ", "fence ", "cache line ", "durable ", "log, ", "tree. "};
  for (size_t at = 0; at < SIZE - 16;) {
    const char *word = WORDS[draw(7)];
    memcpy(text + at, word, strlen(word));
    at += strlen(word);
  }
  size_t size = lzf_compress(text, SIZE, packed, sizeof packed);
  long long sum = 0;
  for (size_t i = 0; i < size; i++) sum = (sum * 31 + packed[i]) % 1000000007;
  print_i64((long long)size);
  print_i64(sum);
  print_i64((long long)lzf_decompress(packed, size, back, SIZE));
  print_i64(memcmp(back, text, SIZE));
  return 0;
}
