// Messages in a ring of bytes: a length, and that many equal bytes.
// Bug: the part of a message after the end of the ring is flushed only after the head has moved.
#include "common.h"

#define SIZE 192
#define LONGEST 60

PERSISTENT struct {
  LINE uint64_t head, tail;
  LINE unsigned char bytes[SIZE];
} ring;

static unsigned char *byte_at(uint64_t place) { return &ring.bytes[place % SIZE]; }

static void recover(void) {
  uint64_t at = ring.tail;
  while (at < ring.head) {
    uint64_t length = *byte_at(at);
    HOLDS(length >= 1 && length <= LONGEST);
    for (uint64_t i = 2; i <= length; i++) HOLDS(*byte_at(at + i) == *byte_at(at + 1));
    at += length + 1;
  }
  HOLDS(at == ring.head);
}

static void put(uint64_t length, unsigned char byte) {
  uint64_t size = length + 1, before_end = SIZE - ring.head % SIZE;
  uint64_t first = before_end < size ? before_end : size, second = size - first;
  if (ring.head - ring.tail + size > SIZE) return;
  *byte_at(ring.head) = (unsigned char)length;
  for (uint64_t i = 1; i <= length; i++) *byte_at(ring.head + i) = byte;
  pmem_flush(byte_at(ring.head), first);
  if (!BUG) pmem_flush(ring.bytes, second);
  pmem_drain();
  ring.head += size;
  PERSIST(ring.head);
  if (BUG) pmem_persist(ring.bytes, second);
}

static void take(void) {
  uint64_t length = *byte_at(ring.tail), sum = 0;
  if (ring.head == ring.tail) return;
  for (uint64_t i = 1; i <= length; i++) sum += *byte_at(ring.tail + i);
  print_i64((long long)sum);
  ring.tail += length + 1;
  PERSIST(ring.tail);
}

int main(void) {
  recover();
  for (long long command; (command = read_i64());) {
    if (command == 1) {
      uint64_t length = (uint64_t)read_i64() % LONGEST + 1;
      put(length, (unsigned char)(read_i64() | 1));
    } else {
      take();
    }
  }
  return 0;
}
