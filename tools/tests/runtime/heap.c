#include "check.h"
#include <errno.h>
#include <malloc.h>
#include <stdlib.h>
#include <string.h>

enum { BLOCKS = 64, ROUNDS = 3000 };

static unsigned char *blocks[BLOCKS];
static size_t sizes[BLOCKS];

static unsigned char mark_of(int number) { return (unsigned char)(number * 37 + 11); }

static void check(int number) {
  for (size_t i = 0; i < sizes[number]; i++)
    if (blocks[number][i] != mark_of(number)) note(-1000 - number);
}

static void give(int number, void *memory, size_t size) {
  if (!memory) note(-1);
  blocks[number] = memory;
  sizes[number] = size;
  memset(memory, mark_of(number), size);
}

static void take_block(int number) {
  size_t size = draw(8) ? draw(200) : draw(3000), alignment = (size_t)16 << draw(6);
  void *memory = NULL;
  switch (draw(5)) {
  case 0: memory = calloc(size / 8 + 1, 8); break;
  case 1: memory = aligned_alloc(alignment, size); break;
  case 2: note(posix_memalign(&memory, alignment, size)); break;
  default: memory = malloc(size); break;
  }
  if ((uintptr_t)memory % 16) note(-2);
  if (malloc_usable_size(memory) < size) note(-3);
  give(number, memory, size);
}

static void change_block(int number) {
  check(number);
  if (draw(3) == 0) {
    size_t size = draw(400) + 1, kept = size < sizes[number] ? size : sizes[number];
    unsigned char *moved = realloc(blocks[number], size);
    for (size_t i = 0; i < kept; i++)
      if (moved[i] != mark_of(number)) note(-4);
    give(number, moved, size);
  } else {
    free(blocks[number]);
    blocks[number] = NULL;
  }
}

int main(void) {
  for (int round = 0; round < ROUNDS; round++) {
    int number = (int)draw(BLOCKS);
    if (blocks[number])
      change_block(number);
    else
      take_block(number);
  }
  for (int number = 0; number < BLOCKS; number++)
    if (blocks[number]) {
      check(number);
      free(blocks[number]);
    }
  print_sum();
  unsigned char *zeros = calloc(100, 30);
  note_bytes(zeros, 3000);
  zeros = realloc(zeros, 10000);
  note_bytes(zeros, 3000);
  free(zeros);
  free(NULL);
  void *unchanged = &zeros;
  note(posix_memalign(&unchanged, 24, 100));
  note(unchanged == &zeros);
  errno = 0;
  note(malloc((size_t)-100) == NULL);
  note(errno == ENOMEM);
  volatile size_t many = SIZE_MAX / 4;
  note(calloc(many, 8) == NULL);
  note(reallocarray(NULL, many, 8) == NULL);
  print_sum();
  return 0;
}
