// A pool of memory with a list of free blocks, and a persistent list whose nodes come from such a pool.
//
// The bug: the pool's functions were written for volatile memory and flush nothing. Flushes in them would slow down the
// volatile pool, which uses the same functions.
#include <hippo.h>
#include <stdint.h>

enum { POOL_BYTES = 1024 };

// A block is named by its offset in the pool; offset 0 names no block. `size` counts the bytes after the head.
struct block {
  uint64_t size;
  uint64_t next;
};

struct pool {
  uint64_t first_free;
  uint64_t taken;
  _Alignas(16) unsigned char bytes[POOL_BYTES];
};

struct node {
  int64_t value;
  uint64_t next;
};

PERSISTENT struct pool heap;
PERSISTENT uint64_t list;
static struct pool scratch;

static struct block *block_at(struct pool *pool, uint64_t offset) { return (struct block *)&pool->bytes[offset - 16]; }

static void *memory_at(struct pool *pool, uint64_t offset) { return &pool->bytes[offset]; }

static void pool_format(struct pool *pool) {
  pool->first_free = 16;
  pool->taken = 0;
  block_at(pool, 16)->size = POOL_BYTES - 16;
  block_at(pool, 16)->next = 0;
}

// The first free block that is large enough; the rest of it becomes a free block of its own.
static uint64_t pool_take(struct pool *pool, uint64_t size) {
  size = (size + 15) & ~(uint64_t)15;
  uint64_t *link = &pool->first_free;
  for (uint64_t offset = *link; offset != 0; offset = *link) {
    struct block *block = block_at(pool, offset);
    if (block->size >= size) {
      if (block->size >= size + 32) {
        uint64_t rest = offset + size + 16;
        block_at(pool, rest)->size = block->size - size - 16;
        block_at(pool, rest)->next = block->next;
        block->size = size;
        *link = rest;
      } else {
        *link = block->next;
      }
      pool->taken += block->size;
      return offset;
    }
    link = &block->next;
  }
  return 0;
}

static void pool_give_back(struct pool *pool, uint64_t offset) {
  struct block *block = block_at(pool, offset);
  pool->taken -= block->size;
  block->next = pool->first_free;
  pool->first_free = offset;
}

static int push(int64_t value) {
  uint64_t offset = pool_take(&heap, sizeof(struct node));
  if (offset == 0) {
    return 0;
  }
  struct node *node = memory_at(&heap, offset);
  node->value = value;
  node->next = list;
  pmem_persist(node, sizeof *node);
  list = offset;
  pmem_persist(&list, sizeof list);
  return 1;
}

static void pop(void) {
  uint64_t offset = list;
  list = ((struct node *)memory_at(&heap, offset))->next;
  pmem_persist(&list, sizeof list);
  pool_give_back(&heap, offset);
}

// The sum of the list, computed from a copy in volatile memory.
static int64_t sum(void) {
  pool_format(&scratch);
  uint64_t copy = pool_take(&scratch, 32 * sizeof(int64_t));
  int64_t *values = memory_at(&scratch, copy);
  int count = 0;
  for (uint64_t offset = list; offset != 0 && count < 32; count++) {
    const struct node *node = memory_at(&heap, offset);
    values[count] = node->value;
    offset = node->next;
  }
  int64_t total = 0;
  for (int i = 0; i < count; i++) {
    total += values[i];
  }
  pool_give_back(&scratch, copy);
  return total;
}

int main(void) {
  pool_format(&heap);
  int64_t value = 0;
  while (push(value * value)) {
    value++;
  }
  print_i64(value);
  print_i64(sum());
  for (int i = 0; i < 10; i++) {
    pop();
  }
  push(1000);
  print_i64(sum());
  print_i64((long long)heap.taken);
  return 0;
}
