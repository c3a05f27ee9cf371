// Doug Lea's allocator, as libffi carries it, over a persistent block of memory.
#include <hippo.h>
#include <stdint.h>

static void *more(ptrdiff_t increment);
#define ONLY_MSPACES 0
#define USE_DL_PREFIX 1
#define HAVE_MMAP 0
#define HAVE_MORECORE 1
#define MORECORE more
#define USE_LOCKS 0
#define NO_MALLINFO 1
#define LACKS_TIME_H 1
#define ABORT __builtin_trap()
#include "dlmalloc.c"
#include "draw.h"

PERSISTENT static _Alignas(4096) unsigned char memory[1 << 19];

static void *more(ptrdiff_t increment) {
  static ptrdiff_t used;
  if (increment < 0 || used + increment > (ptrdiff_t)sizeof memory) return (void *)-1;
  used += increment;
  return memory + used - increment;
}

int main(void) {
  static unsigned char *blocks[40];
  static size_t sizes[40];
  long long sum = 0;
  for (int i = 0, rounds = ROUNDS(1200); i < rounds; i++) {
    unsigned k = draw(40);
    if (blocks[k]) {
      sum = (sum * 31 + blocks[k][0] + blocks[k][sizes[k] - 1]) % 1000000007;
      if (draw(3)) {
        dlfree(blocks[k]);
        blocks[k] = NULL;
        continue;
      }
      sizes[k] = draw(2000) + 1;
      blocks[k] = dlrealloc(blocks[k], sizes[k]);
    } else {
      sizes[k] = draw(4) ? draw(300) + 1 : draw(9000) + 1;
      blocks[k] = draw(2) ? dlmalloc(sizes[k]) : dlmemalign(64, sizes[k]);
    }
    sum += ((uintptr_t)blocks[k] - (uintptr_t)memory) / 16 % 4096;
    blocks[k][0] = (unsigned char)i;
    blocks[k][sizes[k] - 1] = (unsigned char)(i >> 3);
  }
  print_i64(sum);
  print_i64((long long)dlmalloc_footprint());
  return 0;
}
