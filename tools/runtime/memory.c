// Blocks of memory: copied, filled, compared and searched. Copies and fills store whole words where the target is aligned,
// so that a repaired copy flushes once for eight bytes. A word is stored at its alignment, in one cache line.
#include "words.h"
#include <string.h>
#include <strings.h>

// The bytes up to the next word of the target, but at most `size`.
static size_t bytes_to_word(const unsigned char *target, size_t size) {
  size_t left = -(uintptr_t)target % WORD;
  return left < size ? left : size;
}

static void copy_upward(unsigned char *to, const unsigned char *from, size_t size) {
  for (size_t head = bytes_to_word(to, size); head; head--, size--) *to++ = *from++;
  for (; size >= WORD; size -= WORD, to += WORD, from += WORD) *(word *)to = *(const loose_word *)from;
  for (; size; size--) *to++ = *from++;
}

static void copy_downward(unsigned char *to, const unsigned char *from, size_t size) {
  for (; size && (uintptr_t)(to + size) % WORD; size--) to[size - 1] = from[size - 1];
  for (; size >= WORD; size -= WORD) *(word *)(to + size - WORD) = *(const loose_word *)(from + size - WORD);
  for (; size; size--) to[size - 1] = from[size - 1];
}

void *memcpy(void *restrict to, const void *restrict from, size_t size) {
  copy_upward(to, from, size);
  return to;
}

void *mempcpy(void *restrict to, const void *restrict from, size_t size) {
  copy_upward(to, from, size);
  return (unsigned char *)to + size;
}

void *memmove(void *to, const void *from, size_t size) {
  if ((uintptr_t)to <= (uintptr_t)from)
    copy_upward(to, from, size);
  else
    copy_downward(to, from, size);
  return to;
}

void bcopy(const void *from, void *to, size_t size) { memmove(to, from, size); }

void *memccpy(void *restrict to, const void *restrict from, int last, size_t size) {
  const void *found = memchr(from, last, size);
  if (!found) {
    memcpy(to, from, size);
    return NULL;
  }
  return mempcpy(to, from, (const char *)found - (const char *)from + 1);
}

void *memset(void *memory, int byte, size_t size) {
  unsigned char *to = memory;
  word filled = (unsigned char)byte * UINT64_C(0x0101010101010101);
  for (size_t head = bytes_to_word(to, size); head; head--, size--) *to++ = (unsigned char)byte;
  for (; size >= WORD; size -= WORD, to += WORD) *(word *)to = filled;
  for (; size; size--) *to++ = (unsigned char)byte;
  return memory;
}

void bzero(void *memory, size_t size) { memset(memory, 0, size); }

void explicit_bzero(void *memory, size_t size) { memset(memory, 0, size); }

int memcmp(const void *left, const void *right, size_t size) {
  const unsigned char *a = left, *b = right;
  for (; size >= WORD && *(const loose_word *)a == *(const loose_word *)b; size -= WORD) a += WORD, b += WORD;
  for (; size && *a == *b; size--) a++, b++;
  return size ? *a - *b : 0;
}

int bcmp(const void *left, const void *right, size_t size) { return memcmp(left, right, size); }

void *memchr(const void *memory, int byte, size_t size) {
  const unsigned char *from = memory;
  for (; size; size--, from++)
    if (*from == (unsigned char)byte) return (void *)from;
  return NULL;
}

void *rawmemchr(const void *memory, int byte) {
  const unsigned char *from = memory;
  while (*from != (unsigned char)byte) from++;
  return (void *)from;
}

void *memrchr(const void *memory, int byte, size_t size) {
  const unsigned char *from = memory;
  while (size--)
    if (from[size] == (unsigned char)byte) return (void *)(from + size);
  return NULL;
}

void *memmem(const void *memory, size_t size, const void *part, size_t part_size) {
  const unsigned char *from = memory;
  for (; size >= part_size; size--, from++)
    if (memcmp(from, part, part_size) == 0) return (void *)from;
  return NULL;
}
