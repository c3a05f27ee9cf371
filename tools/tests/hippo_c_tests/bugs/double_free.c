// A stack of blocks, and a list of the free ones. A power cut may leak a block, but a block must never be in both.
// Bug: a block becomes free before it leaves the stack.
#include "common.h"

#define BLOCKS 16 // block 0 stands for none

PERSISTENT struct {
  LINE uint32_t top;
  LINE uint32_t first_free;
  LINE uint64_t is_made;
  struct {
    LINE uint64_t value;
    uint32_t below, next_free;
  } blocks[BLOCKS];
} heap;

static void make(void) {
  for (uint32_t block = 1; block < BLOCKS; block++) heap.blocks[block].next_free = (block + 1) % BLOCKS;
  heap.first_free = 1;
  PERSIST(heap);
  heap.is_made = 1;
  PERSIST(heap.is_made);
}

static void see(uint32_t *seen, uint32_t block) {
  HOLDS(!(*seen >> block & 1));
  *seen |= 1u << block;
}

static void recover(void) {
  uint32_t seen = 0;
  if (!heap.is_made) make();
  for (uint32_t block = heap.top; block; block = heap.blocks[block].below) see(&seen, block);
  for (uint32_t block = heap.first_free; block; block = heap.blocks[block].next_free) see(&seen, block);
}

static void set_top(uint32_t block) {
  heap.top = block;
  PERSIST(heap.top);
}

static void set_first_free(uint32_t block) {
  heap.first_free = block;
  PERSIST(heap.first_free);
}

static void push(uint64_t value) {
  uint32_t block = heap.first_free;
  if (!block) return;
  set_first_free(heap.blocks[block].next_free);
  heap.blocks[block].value = value;
  heap.blocks[block].below = heap.top;
  PERSIST(heap.blocks[block]);
  set_top(block);
}

static void release(uint32_t block) {
  heap.blocks[block].next_free = heap.first_free;
  PERSIST(heap.blocks[block]);
  set_first_free(block);
}

static void pop(void) {
  uint32_t block = heap.top;
  if (!block) return;
  print_i64((long long)heap.blocks[block].value);
  if (BUG) release(block);
  set_top(heap.blocks[block].below);
  if (!BUG) release(block);
}

int main(void) {
  recover();
  for (long long command; (command = read_i64());) {
    if (command == 1) push((uint64_t)read_i64());
    else if (command == 3) pop();
    else
      for (uint32_t block = heap.top, left = BLOCKS; block && left; block = heap.blocks[block].below, left--)
        print_i64((long long)heap.blocks[block].value);
  }
  return 0;
}
