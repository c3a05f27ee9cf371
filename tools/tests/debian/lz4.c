// LZ4: a text is compressed into persistent memory, by both of its compressors, and comes back.
#include "draw.h"
#include "lz4.h"
#include "lz4hc.h"
#include <string.h>

enum { SIZE = 8000 };
static char text[SIZE], back[SIZE];
PERSISTENT static char packed[2 * SIZE];

static void print_packed(int size) {
  long long sum = 0;
  for (int i = 0; i < size; i++) sum = (sum * 31 + (unsigned char)packed[i]) % 1000000007;
  print_i64(size);
  print_i64(sum);
  print_i64(LZ4_decompress_safe(packed, back, size, SIZE));
  print_i64(memcmp(back, text, SIZE));
  memset(back, 0, SIZE);
}

int main(void) {
  static const char *const WORDS[] = {"store ", "flush ", "fence ", "cache line ", "durable ", "log, ", "tree. "};
  for (size_t at = 0; at < SIZE - 16;) {
    const char *word = WORDS[draw(7)];
    memcpy(text + at, word, strlen(word));
    at += strlen(word);
  }
  print_packed(LZ4_compress_default(text, packed, SIZE, sizeof packed));
  print_packed(LZ4_compress_fast(text, packed, SIZE, sizeof packed, 8));
  print_packed(LZ4_compress_HC(text, packed, SIZE, sizeof packed, 9));
  return 0;
}
