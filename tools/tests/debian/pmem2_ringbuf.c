// PMDK's example of a ring buffer, whose two ends one thread takes in turn.
#define main ringbuf_main
#include "ringbuf.c"
#undef main
#include <hippo.h>

int main(void) {
  struct pmem2_source *source;
  int fd = open("data.pool", O_RDWR);
  print_i64(pmem2_source_from_fd(&source, fd));
  struct ringbuf *ring = ringbuf_new(source, 192);
  char entry[192], got[192];
  long long sum = 0;
  for (int i = 0; ring && i < 200; i++) {
    memset(entry, i, sizeof entry);
    sum = sum * 3 % 1000003 + ringbuf_enqueue(ring, entry);
    if (i % 3) {
      sum = sum * 3 % 1000003 + ringbuf_dequeue(ring, got);
      sum += got[i % 192];
    }
  }
  print_i64(sum);
  if (ring) ringbuf_delete(ring);
  return 0;
}
