// zlib: a text is compressed into persistent memory at three levels, and comes back.
#include "draw.h"
#include <string.h>
#include <zlib.h>

enum { SIZE = 6000 };
static unsigned char text[SIZE], back[SIZE];
PERSISTENT static unsigned char packed[2 * SIZE];

int main(void) {
  static const char *const WORDS[] = {"store ", "flush ", "fence ", "cache line ", "durable ", "log, ", "tree. "};
  for (size_t at = 0; at < SIZE - 16;) {
    const char *word = WORDS[draw(7)];
    memcpy(text + at, word, strlen(word));
    at += strlen(word);
  }
  static const int LEVELS[] = {1, 6, 9};
  for (int i = 0; i < 3; i++) {
    uLongf size = sizeof packed, size_back = sizeof back;
    print_i64(compress2(packed, &size, text, SIZE, LEVELS[i]));
    print_i64((long long)size);
    print_i64((long long)crc32(0, packed, (uInt)size));
    memset(back, 0, sizeof back);
    print_i64(uncompress(back, &size_back, packed, size));
    print_i64(memcmp(back, text, SIZE));
    print_i64((long long)adler32(1, back, SIZE));
  }
  return 0;
}
