// malloc and similar functions over persistent memory. They flush nothing, as in a program that was written for volatile memory.
// The size of a block is a power of two, and each power has a list of free blocks.
#include <hippo.h>
#include <stdint.h>
#include <string.h>

#ifndef ARENA
#define ARENA (1 << 20)
#endif

enum { HEADER = 16, LISTS = 32 };

struct block {
  size_t power;
  struct block *next;
};

PERSISTENT static struct {
  size_t used;
  struct block *lists[LISTS];
  _Alignas(64) unsigned char bytes[ARENA];
} heap;

void *malloc(size_t size) {
  size_t power = 5;
  while (((size_t)1 << power) < size + HEADER) power++;
  struct block *block = heap.lists[power];
  if (block) {
    heap.lists[power] = block->next;
  } else {
    if (((size_t)1 << power) > ARENA - heap.used) return NULL;
    block = (struct block *)(heap.bytes + heap.used);
    heap.used += (size_t)1 << power;
    block->power = power;
  }
  return (unsigned char *)block + HEADER;
}

void free(void *memory) {
  if (!memory) return;
  struct block *block = (struct block *)((unsigned char *)memory - HEADER);
  block->next = heap.lists[block->power];
  heap.lists[block->power] = block;
}

void *calloc(size_t count, size_t size) {
  void *memory = malloc(count * size);
  return memory ? memset(memory, 0, count * size) : NULL;
}

void *realloc(void *memory, size_t size) {
  if (!memory) return malloc(size);
  struct block *block = (struct block *)((unsigned char *)memory - HEADER);
  size_t room = ((size_t)1 << block->power) - HEADER;
  if (room >= size) return memory;
  void *moved = malloc(size);
  if (!moved) return NULL;
  memcpy(moved, memory, room);
  free(memory);
  return moved;
}

size_t malloc_usable_size(void *memory) {
  struct block *block = (struct block *)((unsigned char *)memory - HEADER);
  return memory ? ((size_t)1 << block->power) - HEADER : 0;
}
