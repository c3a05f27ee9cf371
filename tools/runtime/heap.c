// malloc and similar functions over a volatile arena of HIPPO_HEAP_SIZE bytes. When no free block is large enough and the arena
// is full, they return a null pointer with ENOMEM, as C allows. Blocks are adjacent; a freed block joins its free neighbours, and
// free blocks are in lists by size. A map outside of the arena, which stores past a block do not reach, has the memory that is in
// use; a free of any other address traps, and so does a second free of one block. A second arena of HIPPO_HEAP_ON_STACK bytes lies in
// a block of main: it is one free block as soon as the first arena is full.
#include "heap.h"
#include <errno.h>
#include <stddef.h>
#include <stdint.h>
#include <stdlib.h>
#include <string.h>

#ifndef HIPPO_HEAP_SIZE
#define HIPPO_HEAP_SIZE 4194304
#endif
#ifndef HIPPO_HEAP_ON_STACK
#define HIPPO_HEAP_ON_STACK 0
#endif

struct block {
  size_t before; // the size of the block that ends where this one begins; 0 at the first
  size_t size;   // of this block with its header; the lowest bit is set while it is in use
  struct block *next, **link; // of a free block: the next one in its list, and the pointer that points to this one
};

enum { HEADER = offsetof(struct block, next), SMALLEST = HIPPO_HEAP_SMALLEST, UNIT = HIPPO_HEAP_UNIT, USED = 1, LISTS = 32 };
_Static_assert(SMALLEST == sizeof(struct block), "a free block has its links in it");

enum { FIRST = HIPPO_HEAP_SIZE / UNIT * UNIT, SECOND = HIPPO_HEAP_ON_STACK / UNIT * UNIT };

static _Alignas(64) unsigned char arena[FIRST];
static unsigned char *second; // the second arena, or a null pointer
static int is_second_in_use;  // its free memory is in the lists
static unsigned char used[(FIRST + SECOND) / UNIT / 8 + 1]; // a bit for each unit: the memory of a block in use begins there
static size_t end;        // where the blocks end in the arena
static size_t last_size;  // the size of the block that ends there
static struct block *lists[LISTS]; // free blocks of up to SMALLEST << n bytes, that are too large for the list before

static size_t size_of(const struct block *block) { return block->size & ~(size_t)USED; }

static struct block *at(void *place) { return place; }

static void *payload(struct block *block) { return (unsigned char *)block + HEADER; }

static struct block *block_of(void *memory) { return at((unsigned char *)memory - HEADER); }

static struct block *following(struct block *block) { return at((unsigned char *)block + size_of(block)); }

static int is_last(struct block *block) { return (unsigned char *)following(block) == arena + end; }

static int is_free(const struct block *block) { return !(block->size & USED); }

// The place of the bit of some memory; it traps if no block can begin there.
static size_t unit_of(const void *memory) {
  size_t offset = (uintptr_t)memory - (uintptr_t)arena;
  if (SECOND && offset >= FIRST) {
    size_t further = (uintptr_t)memory - (uintptr_t)second;
    offset = second && further < SECOND ? FIRST + further : FIRST + SECOND;
  }
  if (offset >= FIRST + SECOND || offset % UNIT) __builtin_trap();
  return offset / UNIT;
}

// Marks memory as in use, or as free again.
static void mark(const void *memory) { used[unit_of(memory) / 8] ^= 1 << unit_of(memory) % 8; }

// The block of memory, which must be in use; otherwise it traps.
static struct block *used_block(void *memory) {
  size_t unit = unit_of(memory);
  if (!(used[unit / 8] >> unit % 8 & 1)) __builtin_trap();
  return block_of(memory);
}

// The size of the block that holds this number of bytes, or 0 if no arena is large enough for it.
static size_t block_size(size_t size) {
  if (size > (FIRST > SECOND ? FIRST : SECOND)) return 0;
  size_t whole = (size + HEADER + UNIT - 1) / UNIT * UNIT;
  return whole < SMALLEST ? SMALLEST : whole;
}

static int list_for(size_t size) {
  int list = 0;
  while (list < LISTS - 1 && ((size_t)SMALLEST << list) < size) list++;
  return list;
}

static void put_into_list(struct block *block) {
  struct block **head = &lists[list_for(block->size)];
  block->next = *head;
  block->link = head;
  if (*head) (*head)->link = &block->next;
  *head = block;
}

static void take_from_list(struct block *block) {
  *block->link = block->next;
  if (block->next) block->next->link = block->link;
}

// Sets the size of a block, also in the block after it.
static void set_size(struct block *block, size_t size, size_t used) {
  block->size = size | used;
  if (is_last(block))
    last_size = size;
  else
    following(block)->before = size;
}

// Frees a block and joins it with its free neighbours. The last block becomes part of the unused end of the arena.
static void release(struct block *block) {
  if (!is_last(block) && is_free(following(block))) {
    struct block *next = following(block);
    take_from_list(next);
    set_size(block, size_of(block) + next->size, 0);
  }
  struct block *before = at((unsigned char *)block - block->before);
  if (before != block && is_free(before)) {
    take_from_list(before);
    set_size(before, before->size + size_of(block), 0);
    block = before;
  }
  if (is_last(block)) {
    end -= size_of(block);
    last_size = block->before;
  } else {
    set_size(block, size_of(block), 0);
    put_into_list(block);
  }
}

// Marks a block as used, with this size; the rest becomes a free block if it is large enough.
static void use(struct block *block, size_t size) {
  size_t left = size_of(block) - size;
  if (left < SMALLEST) {
    set_size(block, size_of(block), USED);
    return;
  }
  struct block *rest = at((unsigned char *)block + size);
  rest->size = left | USED;
  set_size(rest, left, USED);
  set_size(block, size, USED);
  release(rest);
}

static struct block *block_from_lists(size_t size) {
  for (int list = list_for(size); list < LISTS; list++)
    for (struct block *block = lists[list]; block; block = block->next)
      if (block->size >= size) {
        take_from_list(block);
        return block;
      }
  return NULL;
}

static struct block *block_from_end(size_t size) {
  if (size > FIRST - end) return NULL;
  struct block *block = at(arena + end);
  block->before = last_size;
  block->size = size;
  end += size;
  last_size = size;
  return block;
}

// Makes the second arena one free block, before a block in use that never becomes free.
static struct block *block_from_second(size_t size) {
  if (!second || is_second_in_use) return NULL;
  is_second_in_use = 1;
  struct block *block = at(second), *last = at(second + SECOND - SMALLEST);
  last->before = SECOND - SMALLEST;
  last->size = SMALLEST | USED;
  block->before = 0;
  block->size = SECOND - SMALLEST;
  put_into_list(block);
  return block_from_lists(size);
}

void hippo_heap_on_stack(void *block) {
  if (SECOND >= 2 * SMALLEST) second = (unsigned char *)(((uintptr_t)block + UNIT - 1) / UNIT * UNIT);
}

void *malloc(size_t size) {
  size_t whole = block_size(size);
  struct block *block = whole ? block_from_lists(whole) : NULL;
  if (whole && !block) block = block_from_end(whole);
  if (SECOND && whole && !block) block = block_from_second(whole);
  if (!block) {
    errno = ENOMEM;
    return NULL;
  }
  use(block, whole);
  mark(payload(block));
  return payload(block);
}

void free(void *memory) {
  if (!memory) return;
  struct block *block = used_block(memory);
  mark(memory);
  release(block);
}

void cfree(void *memory) { free(memory); }

void *calloc(size_t count, size_t size) {
  size_t bytes;
  if (__builtin_mul_overflow(count, size, &bytes)) {
    errno = ENOMEM;
    return NULL;
  }
  void *memory = malloc(bytes);
  return memory ? memset(memory, 0, bytes) : NULL;
}

// Enlarges a block in place, into the free block after it or the end of the arena.
static void grow(struct block *block, size_t size) {
  if (is_last(block)) {
    size_t more = size - size_of(block);
    if (more > FIRST - end) return;
    end += more;
    set_size(block, size, USED);
  } else if (is_free(following(block)) && size_of(block) + following(block)->size >= size) {
    struct block *next = following(block);
    take_from_list(next);
    set_size(block, size_of(block) + next->size, USED);
  }
}

void *realloc(void *memory, size_t size) {
  if (!memory) return malloc(size);
  if (size == 0) {
    free(memory);
    return NULL;
  }
  struct block *block = used_block(memory);
  size_t whole = block_size(size);
  if (whole > size_of(block)) grow(block, whole);
  if (whole && whole <= size_of(block)) {
    use(block, whole);
    return memory;
  }
  void *moved = malloc(size);
  if (!moved) return NULL;
  memcpy(moved, memory, size_of(block) - HEADER);
  free(memory);
  return moved;
}

void *reallocarray(void *memory, size_t count, size_t size) {
  size_t bytes;
  if (__builtin_mul_overflow(count, size, &bytes)) {
    errno = ENOMEM;
    return NULL;
  }
  return realloc(memory, bytes);
}

void *hippo_heap_cut(void *memory, void *place) {
  struct block *block = used_block(memory), *second = block_of(place);
  size_t first = (unsigned char *)second - (unsigned char *)block;
  second->size = (size_of(block) - first) | USED;
  set_size(second, size_of(block) - first, USED);
  set_size(block, first, USED);
  mark(memory);
  mark(place);
  release(block);
  return place;
}

size_t malloc_usable_size(void *memory) { return memory ? size_of(block_of(memory)) - HEADER : 0; }
